//! Times of our functions and of the original in one run: every row is measured again and again,
//! both sides in turn, and the least time of each is said, as a Markdown table.

mod calls;
mod fields;

use std::hint::black_box;
use std::time::Instant;

use oracle::{Degrees, Original, Row};

/// Inputs of a row that takes arrays: few enough to stay in the cache.
const INPUTS: usize = 4_096;

/// How long one turn of one side should take, about, nanoseconds.
const TURN_NS: f64 = 2e6;

/// One row of the table: all sides do the same calls on the same inputs.
struct Bench<'a> {
    name: String,
    /// Calls in one run of a side.
    calls: usize,
    sides: Vec<Box<dyn FnMut() + 'a>>,
}

/// The nanoseconds of one run, as the mean of `runs`.
fn timed(run: &mut dyn FnMut(), runs: usize) -> f64 {
    let begun = Instant::now();
    for _ in 0..runs {
        run();
    }
    begun.elapsed().as_nanos() as f64 / runs as f64
}

/// A row over an array: each side is one function, called once for each input.
fn over<'a, T: Copy, A: 'a, B: 'a>(
    name: &'a str,
    inputs: &'a [T],
    ours: impl Fn(T) -> A + 'a,
    theirs: impl Fn(T) -> B + 'a,
) -> Bench<'a> {
    Bench {
        name: name.to_string(),
        calls: inputs.len(),
        sides: vec![
            Box::new(move || {
                for input in inputs {
                    black_box(ours(black_box(*input)));
                }
            }),
            Box::new(move || {
                for input in inputs {
                    black_box(theirs(black_box(*input)));
                }
            }),
        ],
    }
}

/// Numbers from 0 up to 1, always the same ones.
struct Rng(u64);

impl Rng {
    /// From `low` up to `high`.
    fn float(&mut self, low: f64, high: f64) -> f64 {
        self.0 = self
            .0
            .wrapping_mul(6_364_136_223_846_793_005)
            .wrapping_add(1);
        low + (high - low) * ((self.0 >> 11) as f64 / (1u64 << 53) as f64)
    }
}

/// Pairs of a site and a position whose place is in the grid, or past it.
fn pairs(rng: &mut Rng, far: bool) -> Vec<(Degrees, Degrees)> {
    let mut pairs = Vec::new();
    let reach = if far { 9.0 } else { 1.5 };
    while pairs.len() < INPUTS {
        let site = (rng.float(-70.0, 70.0), rng.float(-170.0, 170.0));
        let at = (
            site.0 + rng.float(-reach, reach),
            site.1 + rng.float(-reach, reach),
        );
        if (siting::siting_place(site.0, site.1, at.0, at.1) >= siting::GRID_CELLS) == far {
            pairs.push((site, at));
        }
    }
    pairs
}

/// Measures all rows in turn, `repeats` times, all sides of a row in turn; the least time of each
/// side in nanoseconds for a call.
fn measured(rows: &mut [Bench], repeats: usize) -> Vec<Vec<f64>> {
    let runs: Vec<Vec<usize>> = rows
        .iter_mut()
        .map(|row| {
            let sides = row.sides.iter_mut().map(|side| {
                side();
                let once = timed(side, 1);
                ((TURN_NS / once) as usize).clamp(1, 10_000)
            });
            sides.collect()
        })
        .collect();
    let mut least: Vec<Vec<f64>> = runs.iter().map(|r| vec![f64::INFINITY; r.len()]).collect();
    for repeat in 0..repeats {
        for ((row, runs), least) in rows.iter_mut().zip(&runs).zip(&mut least) {
            for ((side, runs), least) in row.sides.iter_mut().zip(runs).zip(least) {
                *least = least.min(timed(side, *runs) / row.calls as f64);
            }
        }
        if repeat % 10 == 9 {
            eprintln!("bench: {} of {repeats} repeats", repeat + 1);
        }
    }
    least
}

/// Prints a table: each side's time, and how many times each other's the first one's is.
fn table(heads: &[&str], rows: &mut [Bench], repeats: usize) {
    let times = measured(rows, repeats);
    let ratios = heads[1..].iter().map(|head| format!("ratio to {head}"));
    let columns: Vec<String> = heads
        .iter()
        .map(|head| format!("{head}, ns"))
        .chain(ratios)
        .collect();
    println!("\n| work | {} |", columns.join(" | "));
    println!("|---|{}", "---:|".repeat(columns.len()));
    for (row, times) in rows.iter().zip(times) {
        let shown = |value: Option<&f64>, digits: usize| {
            value.map_or("-".to_string(), |value| format!("{value:.digits$}"))
        };
        let ns = (0..heads.len()).map(|at| shown(times.get(at), 1));
        let ratio = |at| times.get(at).map(|other| times[0] / other);
        let ratios = (1..heads.len()).map(|at| shown(ratio(at).as_ref(), 2));
        let cells: Vec<String> = ns.chain(ratios).collect();
        println!("| {} | {} |", row.name, cells.join(" | "));
    }
}

fn main() {
    if let Some(line) = oracle::missing() {
        println!("{line}");
        return;
    }
    let repeats = std::env::args()
        .nth(1)
        .and_then(|word| word.parse().ok())
        .unwrap_or(40);
    let mut rng = Rng(1);
    let (near, far) = (pairs(&mut rng, false), pairs(&mut rng, true));
    let close: Vec<(Degrees, Degrees)> = near
        .iter()
        .map(|(site, _)| (*site, (site.0 + 0.005, site.1 + 0.005)))
        .collect();
    let heights: Vec<(f64, f64)> = (0..INPUTS)
        .map(|_| (rng.float(0.0, 3_000.0), rng.float(0.0, 13_000.0)))
        .collect();
    let ours = |(site, at): (Degrees, Degrees)| siting::siting_place(site.0, site.1, at.0, at.1);
    let theirs = |(site, at)| Original::place(site, at);
    let fields = fields::all();
    let judged: Vec<Row> = fields.iter().map(|f| Row::new(&f.held, &f.cells)).collect();
    let mut rows = vec![
        over("placing in the grid", &near, ours, theirs),
        over("placing past the grid", &far, ours, theirs),
        over(
            "same place",
            &close,
            |(a, b): (Degrees, Degrees)| probes::same_place(a.0, a.1, b.0, b.1),
            |(a, b)| Original::same_place(a, b),
        ),
        over(
            "horizon",
            &heights,
            |(a, b)| siting::horizon_km(a, b),
            |(a, b)| Original::horizon_km(a, b),
        ),
    ];
    if probes::JUDGES {
        for (field, row) in fields.iter().zip(&judged) {
            rows.push(Bench {
                name: field.name.to_string(),
                calls: 1,
                sides: vec![
                    Box::new(|| {
                        let (ids, site) = (field.held.ids, field.held.site);
                        black_box(probes::judge(&field.cells, ids, site, field.now_ms, 15));
                    }),
                    Box::new(|| {
                        black_box(row.judge(field.now_ms, 15));
                    }),
                ],
            });
        }
    }
    table(&["ours", "the Rust"], &mut rows, repeats);
    let held = calls::Held::all();
    for group in calls::GROUPS {
        let mut rows: Vec<Bench> = held
            .iter()
            .flat_map(|held| calls::benches(held, group))
            .collect();
        table(&calls::HEADS, &mut rows, repeats);
    }
}
