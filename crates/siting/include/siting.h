/* The siting watch for C and Rust: link libsiting.a. Every function is total: any bits may be passed, nothing is kept between calls. */
#ifndef SITING_H
#define SITING_H

#include <stddef.h>
#include <stdint.h>

#ifdef __cplusplus
extern "C" {
#endif

/* The radio horizon in km of an antenna and an aircraft so many metres above the surface: 4.12 × (√antenna_m + √aircraft_m),
   every operation rounded once. A NaN, a negative number or either zero is taken as +0. */
double horizon_km(double antenna_m, double aircraft_m);

/* Where a position lies seen from a site, both in degrees. Below 1,600: the grid's cell, 40 × row + column, from the south-west corner.
   1,600 to 1,671: 1,600 + the far bin, 9 × sector + band. */
uint16_t siting_place(double site_lat, double site_lon, double lat, double lon);

/* What siting_place answers where a degree is not finite, a latitude not from −90 to 90, or a longitude not from −180 to 180. */
#define SITING_NO_DEGREES 65535

/* The seven calls over a watch that the caller lends: rows of 25 numbers each (rows_len is 25 times the receivers), 3,344 cells for each row, and the
   row numbers of the first used, the last used and the first free row (4294967295 for none). They need not be in order: what is no watch is refused
   with 1 or 2. A call answers in nine numbers:
     answer[0]  0 refused, 1 a generation (claim), 2 a judgment, 3 a state (check), 4 the key freed, 5 accepted (6 is siting_turn's, below)
     answer[1]  the number of the question that was answered no (9: a judging too soon, see judged_ms); the generation; or 0 unjudged, 1 fits, 2 wrong
     answer[2]  the distance in km, if wrong
     answer[3]  the evidence of a judgment: 1 horizon, 2 near field, 3 nothing near
     answer[4]  1 where a claim pushed a key out
     answer[5] to answer[8]  the key pushed out or freed, four little-endian words of eight bytes
   A refusal changes nothing that was lent but the answer. A tag (site, alt, has_feet) of 0 says that the number behind it is none. */
#define SITING_ROW_WORDS 25
#define SITING_ROW_CELLS 3344

/* A row's 25 numbers by name, in their order: `rows` may be read as an array of these. A number whose name begins with has_ is 0 or 1 and says whether
   the numbers behind it are held (has_site: lat_bits to alt_m; has_verdict: last to moved); what is not held is 0. Any other number
   there, or one that is too wide, is refused with 2, in a free row too; an accepted call leaves none. */
struct siting_row {
  uint64_t key[4];      /* little-endian words of eight bytes */
  uint64_t has_site;
  uint64_t lat_bits;    /* the bits of a double, degrees */
  uint64_t lon_bits;
  uint64_t has_alt;
  uint64_t alt_m;       /* the 32 bits of an int32_t, metres */
  uint64_t generation;  /* 32 bits */
  uint64_t has_even;
  uint64_t even_id;     /* milliseconds div 43,200,000 */
  uint64_t has_odd;
  uint64_t odd_id;
  uint64_t has_verdict;
  uint64_t last;        /* 0 unjudged, 1 fits, 2 wrong */
  uint64_t wrongs;      /* in a row, stopped at 255 */
  uint64_t others;
  uint64_t has_off;
  uint64_t off_km;      /* the distance held */
  uint64_t moved;       /* 1 where a move has ended the run */
  uint64_t before;      /* row numbers, 4294967295 for none */
  uint64_t after;
  uint64_t has_judged_ms;
  uint64_t judged_ms;   /* now_ms of the last accepted judging */
};

void siting_fresh(uint64_t *rows, size_t rows_len, uint32_t *cells, size_t cells_len, uint32_t ends[3], uint64_t answer[9]);
void siting_claim(uint64_t *rows, size_t rows_len, uint32_t *cells, size_t cells_len, uint32_t ends[3], uint64_t answer[9], const uint64_t key[4],
                  uint8_t site, double lat, double lon, uint8_t alt, int32_t alt_m);
void siting_position(uint64_t *rows, size_t rows_len, uint32_t *cells, size_t cells_len, uint32_t ends[3], uint64_t answer[9], const uint64_t key[4],
                     double lat, double lon, uint8_t has_feet, int32_t feet, uint32_t address, uint64_t at_ms);
void siting_judging(uint64_t *rows, size_t rows_len, uint32_t *cells, size_t cells_len, uint32_t ends[3], uint64_t answer[9], const uint64_t key[4],
                    uint64_t now_ms, uint64_t aircraft);
void siting_check(uint64_t *rows, size_t rows_len, uint32_t *cells, size_t cells_len, uint32_t ends[3], uint64_t answer[9], const uint64_t key[4]);
void siting_take_out(uint64_t *rows, size_t rows_len, uint32_t *cells, size_t cells_len, uint32_t ends[3], uint64_t answer[9], const uint64_t key[4]);
void siting_drop_oldest(uint64_t *rows, size_t rows_len, uint32_t *cells, size_t cells_len, uint32_t ends[3], uint64_t answer[9]);

/* A tick of the turn keeper: it names the k rows from number `next` on, in ascending number, going round to 0 (a next of the rows' number or more counts
   as 0), and writes the keys of the used ones in that order from the start of the list, 32 bytes each; the rest of the list stays. The watch is only
   read. In `answer`: 6, how many keys were written, and the next row number, to be handed to the next tick; or 0 and 1, 2, or 8 where k is not from 1
   to the rows' number or the list holds fewer than k keys (list_len div 32), and then no byte of the list has changed. Ticks of one k name every row
   within rows / k ticks, one more if that leaves a remainder. */
void siting_turn(const uint64_t *rows, size_t rows_len, const uint32_t *cells, size_t cells_len, const uint32_t ends[3], uint64_t answer[9],
                 uint32_t next, uint32_t k, uint8_t *list, size_t list_len);

#ifdef __cplusplus
}
#endif

#endif
