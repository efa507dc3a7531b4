//! The radio horizon against the original, bit for bit.

use oracle::Original;
use siting::horizon_km;

use crate::excuses::{Kind, Tally};
use crate::report::{Failures, Outcome, Progress, hex};
use crate::rng::Rng;

/// Heights that are easy to get wrong.
pub const SPECIAL: [f64; 16] = [
    0.0,
    -0.0,
    1.0,
    -1.0,
    4.0,
    -5.0,
    f64::NAN,
    -f64::NAN,
    f64::INFINITY,
    f64::NEG_INFINITY,
    f64::MIN_POSITIVE,
    -f64::MIN_POSITIVE,
    5e-324,
    -5e-324,
    f64::MAX,
    f64::MIN,
];

/// A way of making one height.
pub type Maker = fn(&mut Rng) -> f64;

/// The ways, with the names that are printed.
pub const WAYS: [(&str, Maker); 7] = [
    ("heights in metres", |rng| rng.float(-100.0, 40_000.0)),
    ("an antenna's height, as judged", |rng| {
        rng.int(-50, 9_000).max(0) as f64 + 100.0
    }),
    ("a bucket's ceiling, as judged", |rng| {
        f64::from((rng.int(0, 254) as i32 + 1) * 500) * 0.3048
    }),
    ("any bits", |rng| f64::from_bits(rng.next())),
    ("special values", |rng| rng.pick(&SPECIAL)),
    ("subnormals", |rng| {
        f64::from_bits(rng.next() >> (12 + rng.below(52)))
    }),
    ("squares and their neighbours", square),
];

/// The square of a float of few or many digits at any scale, or a float beside it.
fn square(rng: &mut Rng) -> f64 {
    let digits = rng.next() >> (11 + rng.below(45));
    let scale = 2.0_f64.powi(rng.int(-530, 450) as i32);
    let root = digits as f64 * scale;
    let square = root * root;
    match rng.below(4) {
        0 => square.next_up(),
        1 => square.next_down(),
        _ => square,
    }
}

/// `count` pairs of heights, each made by its own way.
pub fn check(seed: u64, count: u64) -> Outcome {
    let mut rng = Rng::new(seed, "horizon");
    let mut progress = Progress::new("horizon", count);
    let (mut tally, mut failures) = (Tally::default(), Failures::default());
    let mut made = [0u64; WAYS.len()];
    let mut differ = 0u64;
    for done in 0..count {
        progress.at(done);
        let mut one = || {
            let way = rng.below(WAYS.len());
            made[way] += 1;
            WAYS[way].1(&mut rng)
        };
        let (antenna, aircraft) = (one(), one());
        let ours = horizon_km(antenna, aircraft);
        let theirs = Original::horizon_km(antenna, aircraft);
        if ours.to_bits() == theirs.to_bits() {
            continue;
        }
        differ += 1;
        if ours == 0.0 && theirs == 0.0 {
            tally.count(Kind::ZeroSign, 0.0);
        } else {
            failures.add(&format!(
                "horizon {}: ours {}, the original's {}",
                hex(&[antenna, aircraft]),
                hex(&[ours]),
                hex(&[theirs])
            ));
        }
    }
    let seconds = progress.seconds();
    println!("horizon: {count} pairs, {differ} differ, {seconds:.1} s");
    for ((name, _), made) in WAYS.iter().zip(made) {
        println!("  {made:>9} {name}");
    }
    print!("{}", tally.table(&[Kind::ZeroSign]));
    failures.outcome()
}
