/* Prints size, alignment and offsets of siting.h's struct siting_row, then the rows that three calls wrote, read through it. tests/layout.rs compiles it
   and writes fields.inc: FIELD(name) for each field but the key. */
#include <inttypes.h>
#include <stdalign.h>
#include <stdio.h>
#include <stdlib.h>

#include "siting.h"

#define ROWS 3

static void layout(void) {
  printf("size %zu\nalign %zu\n", sizeof(struct siting_row), alignof(struct siting_row));
  printf("key %zu %zu\n", offsetof(struct siting_row, key), sizeof(((struct siting_row *)0)->key));
#define FIELD(name) printf(#name " %zu %zu\n", offsetof(struct siting_row, name), sizeof(((struct siting_row *)0)->name));
#include "fields.inc"
#undef FIELD
}

static void show(const struct siting_row *row) {
  printf("row %" PRIx64 " %" PRIx64 " %" PRIx64 " %" PRIx64, row->key[0], row->key[1], row->key[2], row->key[3]);
#define FIELD(name) printf(" %" PRIx64, row->name);
#include "fields.inc"
#undef FIELD
  printf("\n");
}

int main(void) {
  static uint64_t rows[SITING_ROW_WORDS * ROWS];
  static uint32_t cells[SITING_ROW_CELLS * ROWS];
  const size_t words = SITING_ROW_WORDS * ROWS, all = SITING_ROW_CELLS * ROWS;
  const uint64_t a[4] = {1, 2, 3, 4}, b[4] = {5, 6, 7, 8};
  uint32_t ends[3];
  uint64_t answer[9];
  layout();
  siting_fresh(rows, words, cells, all, ends, answer);
  siting_claim(rows, words, cells, all, ends, answer, a, 1, 51.4775, -0.4614, 1, -3);
  siting_claim(rows, words, cells, all, ends, answer, b, 0, 0.0, 0.0, 0, 0);
  siting_position(rows, words, cells, all, ends, answer, a, 51.6, -0.3, 1, 7400, 77, 86400000);
  siting_judging(rows, words, cells, all, ends, answer, a, 86400000, 15);
  for (size_t at = 0; at < ROWS; at++) show((const struct siting_row *)&rows[SITING_ROW_WORDS * at]);
  printf("ends %" PRIu32 " %" PRIu32 " %" PRIu32 "\n", ends[0], ends[1], ends[2]);
  return answer[0] == 2 ? EXIT_SUCCESS : EXIT_FAILURE;
}
