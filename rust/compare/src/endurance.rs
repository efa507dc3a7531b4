//! Endurance: random calls on random watches, junk included, for as long as one likes. Nothing may
//! crash, and no refusal may change a byte; the checksum of all memory and answers is the same for
//! the same seed and count, however the harness was compiled.

use oracle::{Claim, Degrees, Key};
use siting::{MOST_ROWS, ROW_CELLS, ROW_WORDS};

use crate::kept::Kept;
use crate::lent::Lent;
use crate::model::EPOCH_MS;
use crate::report::{Failures, Outcome, Progress};
use crate::rng::Rng;
use crate::soups::{altitude, any_watch, bad, feet, key, place};
use crate::watch::{Answer, Call};

/// The first watches, so that a short run has the ends too.
const FIRST: [usize; 4] = [MOST_ROWS, 1, 1_024, 64];

/// Rows: mostly few, since a refusal on 4,096 compares 55 MB.
fn rows(rng: &mut Rng) -> usize {
    let (low, high) = match rng.below(2_000) {
        0..3 => (MOST_ROWS as i64, MOST_ROWS as i64),
        3..6 => (1_025, MOST_ROWS as i64),
        6..40 => (65, 1_024),
        40..200 => (9, 64),
        _ => (1, 8),
    };
    rng.int(low, high) as usize
}

/// Sums words and texts up.
struct Checksum(u64);

impl Checksum {
    fn word(&mut self, word: u64) {
        self.0 = (self.0 ^ word).wrapping_mul(0x100_0000_01B3).rotate_left(5);
    }

    fn memory(&mut self, watch: &siting::Watch) {
        for end in watch.ends {
            self.word(u64::from(end));
        }
        watch.rows.iter().for_each(|word| self.word(*word));
        let pairs = watch.cells.chunks(2);
        pairs.for_each(|pair| {
            let high = pair.get(1).copied().unwrap_or(0);
            self.word(u64::from(pair[0]) | u64::from(high) << 32);
        });
    }
}

/// One watch and what its calls draw from.
struct Trial {
    table: Lent,
    keys: Vec<Key>,
    sites: [Degrees; 2],
    clock: u64,
}

impl Trial {
    /// A fresh watch, one of any rows in order, or junk from end to end.
    fn new(rng: &mut Rng, rows: usize) -> Self {
        let mut keys: Vec<Key> = (0..rows.min(12) + 1).map(|_| key(rng)).collect();
        let table = match rng.below(8) {
            0 | 1 if rows <= 64 => {
                let watch = any_watch(rng, rows);
                keys.extend(watch.rows.iter().take(12).map(|row| row.key));
                Lent::of(&watch)
            }
            2 => Lent(Kept::new(siting::Watch {
                rows: (0..ROW_WORDS * rows).map(|_| any_word(rng)).collect(),
                cells: (0..ROW_CELLS * rows).map(|_| rng.next() as u32).collect(),
                ends: [(); 3].map(|()| rng.below(rows + 1) as u32),
            })),
            _ => {
                let fresh = siting::Watch::new(rows).expect("1 to 4,096 rows");
                Lent(Kept::new(fresh))
            }
        };
        Self {
            table,
            keys,
            sites: [place(rng), place(rng)],
            clock: rng.pick(&[0, 41_000 * EPOCH_MS, u64::MAX - 9 * EPOCH_MS]),
        }
    }

    /// Degrees: near a site, out of range, or any bits.
    fn degrees(&self, rng: &mut Rng) -> Degrees {
        let site = rng.pick(&self.sites);
        match rng.below(24) {
            0 => bad(rng),
            1 => (f64::from_bits(rng.next()), f64::from_bits(rng.next())),
            2..6 => site,
            6..10 => (site.0 + rng.within(6.0), site.1 + rng.within(9.0)),
            _ => (site.0 + rng.within(0.9), site.1 + rng.within(1.2)),
        }
    }

    /// Any call.
    fn call(&mut self, rng: &mut Rng) -> Call {
        let step = rng.pick(&[1, 9_000, 1_800_000, EPOCH_MS]);
        self.clock = self.clock.saturating_add(rng.next() % step);
        let time = |rng: &mut Rng, clock: u64| match rng.below(32) {
            0 => rng.next(),
            1 | 2 => clock.saturating_sub(rng.next() % (3 * EPOCH_MS)),
            _ => clock,
        };
        let key = rng.pick(&self.keys);
        match rng.below(32) {
            0..8 => {
                let site = (!rng.one_in(9)).then(|| Claim {
                    at: self.degrees(rng),
                    alt_m: altitude(rng),
                });
                Call::Claim(key, site)
            }
            8..19 => Call::Position {
                key,
                at: self.degrees(rng),
                feet: feet(rng),
                address: rng.next() as u32 % 40,
                at_ms: time(rng, self.clock),
            },
            19..24 => Call::Judging {
                key,
                // Often far enough behind the last one, so that some are accepted.
                now_ms: time(rng, self.clock).saturating_add(rng.pick(&[0, 0, 1_800_000])),
                aircraft: rng.pick(&[14, 15, 40, u64::MAX]),
            },
            24..29 => Call::Check(key),
            29 => Call::TakeOut(key),
            30 => Call::Drop,
            _ if rng.one_in(4) => Call::Fresh,
            _ => Call::Check(crate::soups::key(rng)),
        }
    }

    /// Spoils one number, cell or end, or lends another size; what puts it right again.
    fn spoil(&mut self, rng: &mut Rng) -> Spoiled {
        let now = self.table.0.now();
        let (words, cells) = (now.rows.len(), now.cells.len());
        match rng.below(4) {
            0 => {
                let end = rng.below(3);
                let old = now.ends[end];
                let any = rng.next() as u32;
                let new = rng.pick(&[0, 1, u32::MAX, (words / ROW_WORDS) as u32, any]);
                self.table.0.set(|watch| watch.ends[end] = new);
                Spoiled::End(end, old)
            }
            1 => {
                let any = (rng.below(words + 1), rng.below(cells + 1));
                let rows = rng.pick(&[0, ROW_WORDS - 1, ROW_WORDS, words - 1, any.0, words]);
                let lent = rng.pick(&[0, 3_344, cells - 1, any.1, cells]);
                self.table.0.cut(rows, lent);
                Spoiled::Size(words, cells)
            }
            _ => {
                let at = rng.below(words);
                let (old, new) = (now.rows[at], any_word(rng));
                self.table.0.set(|watch| watch.rows[at] = new);
                Spoiled::Word(at, old)
            }
        }
    }

    /// Takes a spoiling back; a number only where nothing was accepted since.
    fn mend(&mut self, spoiled: &Spoiled, refused: bool) {
        match *spoiled {
            Spoiled::Size(rows, cells) => self.table.0.cut(rows, cells),
            Spoiled::End(end, old) if refused => self.table.0.set(|watch| watch.ends[end] = old),
            Spoiled::Word(at, old) if refused => self.table.0.set(|watch| watch.rows[at] = old),
            Spoiled::End(..) | Spoiled::Word(..) => {}
        }
    }
}

/// What was spoiled, and what stood there.
enum Spoiled {
    Word(usize, u64),
    End(usize, u32),
    Size(usize, usize),
}

/// A number as a row has it, or any.
fn any_word(rng: &mut Rng) -> u64 {
    let any = rng.next();
    rng.pick(&[
        0,
        1,
        2,
        3,
        5,
        255,
        256,
        u64::from(u32::MAX),
        1 << 32,
        any,
        any >> 32,
    ])
}

/// What was counted over all watches.
struct Seen {
    calls: u64,
    watches: u64,
    accepted: u64,
    /// By the number of the question.
    refused: [u64; 10],
    /// Calls on more than 64 rows, and on more than 1,024.
    wide: [u64; 2],
    failures: Failures,
    sum: Checksum,
}

impl Seen {
    /// One call.
    fn call(&mut self, trial: &mut Trial, rng: &mut Rng) -> bool {
        let call = trial.call(rng);
        self.calls += 1;
        let answer = trial.table.called(&call).unwrap_or_else(|wrong| {
            self.failures
                .add(&format!("endurance: call {}: {wrong}", self.calls));
            Answer::No(0)
        });
        for byte in answer.line().bytes() {
            self.sum.word(u64::from(byte));
        }
        match answer {
            Answer::No(number) => self.refused[usize::from(number)] += 1,
            _ => self.accepted += 1,
        }
        matches!(answer, Answer::No(_))
    }

    /// So many calls on one watch.
    fn watch(&mut self, rng: &mut Rng, rows: usize, calls: u64) {
        let mut trial = Trial::new(rng, rows);
        let before = self.calls;
        while self.calls < before + calls {
            if rng.one_in(16) {
                let spoiled = trial.spoil(rng);
                let times = rng.int(1, 3);
                let refused = (0..times).all(|_| self.call(&mut trial, rng));
                trial.mend(&spoiled, refused);
            } else {
                self.call(&mut trial, rng);
            }
        }
        self.watches += 1;
        for (wide, least) in self.wide.iter_mut().zip([64, 1_024]) {
            *wide += if rows > least { self.calls - before } else { 0 };
        }
        self.sum.memory(trial.table.0.now());
    }
}

/// Random calls until so many were made, or so many seconds are over (0 for no end).
pub fn check(seed: u64, calls: u64, seconds: u64) -> Outcome {
    let mut rng = Rng::new(seed, "endurance");
    let mut progress = Progress::new("endurance", calls);
    let mut seen = Seen {
        calls: 0,
        watches: 0,
        accepted: 0,
        refused: [0; 10],
        wide: [0; 2],
        failures: Failures::default(),
        sum: Checksum(0xCBF2_9CE4_8422_2325),
    };
    let over = |progress: &Progress| seconds > 0 && progress.seconds() > seconds as f64;
    while seen.calls < calls && !over(&progress) && seen.failures.count <= 20 {
        let rows = FIRST.get(seen.watches as usize).copied();
        let rows = rows.unwrap_or_else(|| self::rows(&mut rng));
        let most = if rows > 1_024 { 50 } else { 400 };
        let each = rng.int(20, most) as u64;
        seen.watch(&mut rng, rows, each.min(calls - seen.calls));
        progress.at(seen.calls / 1_024 * 1_024);
    }
    println!(
        "endurance: {} calls on {} watches ({} on more than 64 rows, {} on more than 1,024), {} accepted; {:.1} s",
        seen.calls,
        seen.watches,
        seen.wide[0],
        seen.wide[1],
        seen.accepted,
        progress.seconds()
    );
    let counts: Vec<String> = (1..seen.refused.len())
        .filter(|at| seen.refused[*at] > 0)
        .map(|at| format!("{at}: {}", seen.refused[at]))
        .collect();
    println!(
        "  refused, by question: {}; after each all memory was compared",
        counts.join(", ")
    );
    println!("  checksum of all memory and answers {:016x}", seen.sum.0);
    seen.failures.outcome()
}
