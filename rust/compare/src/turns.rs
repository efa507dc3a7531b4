//! The turn keeper against a plain model: slots with keys in their order of use, and row numbers
//! by a remainder. Between the ticks receivers are claimed, heard and taken out; after each tick
//! the answer, the whole list and the watch's memory are compared, and at the end of a round it is
//! seen that every receiver that stayed in its row was given. Ticks in lists of calls are held to
//! the same plain tick.

use std::collections::{HashSet, VecDeque};

use oracle::Key;
use siting::{Lent, Position, ROW_CELLS, Site, Watch, raw};

use crate::kept::Kept;
use crate::report::{Failures, Outcome, Progress};
use crate::rng::Rng;
use crate::soups::key;

const SITE: Site = Site {
    lat: 51.4775,
    lon: -0.4614,
    alt_m: Some(40),
};

const HEARD: Position = Position {
    lat: 51.6,
    lon: -0.3,
    feet: Some(7_400),
    address: 77,
    at_ms: 5_000,
};

/// The watch as far as turns go: who stands in each row and since which tick, the order of use,
/// and the free rows, the first of them last.
struct Model {
    rows: Vec<Option<Key>>,
    since: Vec<u64>,
    order: VecDeque<usize>,
    free: Vec<usize>,
}

impl Model {
    fn new(rows: usize) -> Self {
        Self {
            rows: vec![None; rows],
            since: vec![0; rows],
            order: VecDeque::new(),
            free: (0..rows).rev().collect(),
        }
    }

    fn row_of(&self, key: &Key) -> Option<usize> {
        self.rows.iter().position(|held| held.as_ref() == Some(key))
    }

    fn mark(&mut self, row: usize) {
        self.order.retain(|at| *at != row);
        self.order.push_back(row);
    }

    fn release(&mut self, row: usize, tick: u64) {
        self.order.retain(|at| *at != row);
        self.free.push(row);
        self.rows[row] = None;
        self.since[row] = tick;
    }

    fn claim(&mut self, key: Key, tick: u64) {
        if let Some(row) = self.row_of(&key) {
            return self.mark(row);
        }
        if self.free.is_empty() {
            self.release(self.order[0], tick);
        }
        let row = self.free.pop().expect("one is free");
        self.rows[row] = Some(key);
        self.since[row] = tick;
        self.order.push_back(row);
    }
}

/// A tick over who stands in each row: the count and the next row number, or 8; the list's start
/// is written.
pub fn plain(rows: &[Option<Key>], next: u32, k: u32, list: &mut [u8]) -> Result<(u64, u64), u64> {
    let all = rows.len();
    let many = k as usize;
    if many < 1 || many > all || list.len() / 32 < many {
        return Err(8);
    }
    let first = if (next as usize) < all {
        next as usize
    } else {
        0
    };
    let given = (first..first + many).filter_map(|row| rows[row % all]);
    let mut count = 0;
    for (key, place) in given.zip(list.chunks_exact_mut(32)) {
        place.copy_from_slice(&key);
        count += 1;
    }
    Ok((count, ((first + many) % all) as u64))
}

/// The proved tick, over any part of the watch's memory and any bytes as the list.
fn tick(
    watch: &Watch,
    cells: usize,
    next: u32,
    k: u32,
    list: &mut [u8],
) -> Result<(u64, u64), u64> {
    let mut answer = [0; 9];
    // SAFETY: pointers and counts are those of borrows that outlive the call.
    unsafe {
        raw::siting_turn(
            watch.rows.as_ptr(),
            watch.rows.len(),
            watch.cells[..cells].as_ptr(),
            cells,
            &watch.ends,
            &mut answer,
            next,
            k,
            list.as_mut_ptr(),
            list.len(),
        );
    }
    match answer {
        [0, number, 0, 0, 0, 0, 0, 0, 0] => Err(number),
        [6, count, next, 0, 0, 0, 0, 0, 0] => Ok((count, next)),
        _ => Err(0),
    }
}

/// What is done to a watch between ticks, the so many-th time: judgings are half an hour apart, so that none is too soon.
fn change(
    rng: &mut Rng,
    kept: &mut Kept,
    model: &mut Model,
    keys: &[Key],
    (tick, times): (u64, u64),
) -> bool {
    let key = rng.pick(keys);
    let held = model.row_of(&key);
    let mut lent: Lent<'_> = kept.lent();
    let right = match rng.below(8) {
        0..4 => {
            model.claim(key, tick);
            lent.claim(&key, Some(SITE)).is_ok()
        }
        4 => {
            held.iter().for_each(|row| model.mark(*row));
            lent.position(&key, &HEARD).is_ok() == held.is_some()
        }
        5 => lent.judging(&key, times * 1_800_000, 15).is_ok() == held.is_some(),
        6 => {
            held.iter().for_each(|row| model.release(*row, tick));
            lent.take_out(&key).is_ok() == held.is_some()
        }
        _ => {
            let oldest = model.order.front().copied();
            oldest.iter().for_each(|row| model.release(*row, tick));
            lent.drop_oldest().is_ok() == oldest.is_some()
        }
    };
    kept.follow_all();
    right
}

/// What was counted over all rounds.
#[derive(Default)]
struct Seen {
    ticks: u64,
    rounds: u64,
    given: u64,
    refused: [u64; 9],
    changes: u64,
    failures: Failures,
}

impl Seen {
    /// One tick, ours and the model's. Both get the same bytes as the list.
    fn tick(
        &mut self,
        rng: &mut Rng,
        kept: &Kept,
        model: &Model,
        (next, k): (u32, u32),
    ) -> Option<(Vec<u8>, u64)> {
        let bytes = match rng.below(16) {
            0 => rng.below(32 * k as usize % 4_096 + 40),
            1..4 => 32 * k as usize,
            _ => 32 * k as usize + rng.below(100),
        };
        let before: Vec<u8> = (0..bytes).map(|_| rng.next() as u8).collect();
        let (mut ours, mut listed) = (before.clone(), before);
        let cells = kept.now().cells.len();
        let answer = tick(kept.now(), cells, next, k, &mut ours);
        let said = plain(&model.rows, next, k, &mut listed);
        self.ticks += 1;
        if answer != said || ours != listed {
            let text = format!(
                "turns: tick {}: turn {next} {k} {bytes}: {answer:?}, the model {said:?}",
                self.ticks
            );
            self.failures.add(&text);
        }
        if !kept.unchanged() {
            self.failures
                .add(&format!("turns: tick {}: the watch changed", self.ticks));
        }
        match answer {
            Ok((count, after)) => {
                self.given += count;
                Some((ours[..32 * count as usize].to_vec(), after))
            }
            Err(number) => {
                self.refused[number as usize % 9] += 1;
                None
            }
        }
    }

    /// A round of ticks of the same k, each handed the number that the last answered.
    fn round(
        &mut self,
        rng: &mut Rng,
        kept: &mut Kept,
        model: &mut Model,
        keys: &[Key],
        first: u32,
    ) -> u32 {
        let all = model.rows.len() as u32;
        let k = rng.int(1, i64::from(all)) as u32;
        let begun = self.ticks;
        let (mut next, mut given) = (first, HashSet::new());
        for _ in 0..all.div_ceil(k) {
            let mut turned = None;
            while turned.is_none() {
                turned = self.tick(rng, kept, model, (next, k));
                if self.failures.count > 20 {
                    return next;
                }
            }
            if let Some((list, after)) = turned {
                given.extend(list.chunks_exact(32).map(<[u8]>::to_vec));
                next = after as u32;
            }
            for _ in 0..rng.below(3) {
                self.changes += 1;
                if !change(rng, kept, model, keys, (self.ticks, self.changes)) {
                    self.failures
                        .add(&format!("turns: after tick {}: a call", self.ticks));
                }
            }
        }
        self.rounds += 1;
        for (row, held) in model.rows.iter().enumerate() {
            let stayed = held.filter(|_| model.since[row] <= begun);
            if stayed.is_some_and(|key| !given.contains(key.as_slice())) {
                self.failures.add(&format!(
                    "turns: round {}: row {row} had no turn",
                    self.rounds
                ));
            }
        }
        next
    }

    /// Ticks that are refused: k of none or too many, and watches that get 1 or 2 before that.
    fn refusals(&mut self, rng: &mut Rng, kept: &mut Kept, model: &Model) {
        let all = model.rows.len() as u32;
        let k = rng.pick(&[0, all + 1, u32::MAX]);
        let mut list = [7; 64];
        let next = rng.pick(&[0, all, u32::MAX]);
        self.tick(rng, kept, model, (next, k.min(5_000)));
        let row = rng.below(all as usize);
        let (at, lent) = (siting::ROW_WORDS * row + 4, kept.now().cells.len());
        let old = kept.now().rows[at];
        kept.set(|watch| watch.rows[at] = 2);
        let two = tick(kept.now(), lent, 0, k, &mut list);
        let fewer = lent - rng.pick(&[1, ROW_CELLS]);
        let one = tick(kept.now(), fewer, 0, k, &mut list);
        kept.set(|watch| watch.rows[at] = old);
        self.ticks += 2;
        self.refused[1] += 1;
        self.refused[2] += 1;
        if (one, two, list) != (Err(1), Err(2), [7; 64]) || !kept.unchanged() {
            let text = format!(
                "turns: tick {}: {one:?} and {two:?} for 1 and 2",
                self.ticks
            );
            self.failures.add(&text);
        }
    }
}

/// Rows: mostly few, since after each tick all memory is compared.
fn rows(rng: &mut Rng) -> usize {
    let (low, high) = match rng.below(200) {
        0 => (65, 600),
        1..20 => (9, 64),
        _ => (1, 8),
    };
    rng.int(low, high) as usize
}

/// So many ticks, at least.
pub fn check(seed: u64, ticks: u64) -> Outcome {
    let mut rng = Rng::new(seed, "turns");
    let mut progress = Progress::new("turns", ticks);
    let mut seen = Seen::default();
    let mut most = 0;
    while seen.ticks < ticks && seen.failures.count <= 20 {
        let all = rows(&mut rng);
        most = most.max(all);
        let mut kept = Kept::new(Watch::new(all).expect("1 to 4,096 rows"));
        let mut model = Model::new(all);
        let keys: Vec<Key> = (0..all + all / 2 + 1).map(|_| key(&mut rng)).collect();
        let any = rng.next() as u32;
        let mut next = rng.pick(&[0, all as u32 - 1, all as u32, any]);
        for _ in 0..rng.int(4, 40) {
            next = seen.round(&mut rng, &mut kept, &mut model, &keys, next);
            seen.refusals(&mut rng, &mut kept, &model);
        }
        progress.at(seen.ticks / 1_024 * 1_024);
    }
    println!(
        "turns: {} ticks in {} rounds on up to {most} rows, {} keys given, {} calls between; {:.1} s",
        seen.ticks,
        seen.rounds,
        seen.given,
        seen.changes,
        progress.seconds()
    );
    println!(
        "  refused, by question: 1: {}, 2: {}, 8: {}; after each tick all memory was compared",
        seen.refused[1], seen.refused[2], seen.refused[8]
    );
    if seen.failures.count == 0 && [1, 2, 8].iter().any(|number| seen.refused[*number] == 0) {
        seen.failures.add("turns: a refusal was not reached");
    }
    seen.failures.outcome()
}
