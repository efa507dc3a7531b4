//! The placing of a position against the original's, and what is reached by it.

use oracle::{Counter, Degrees, Original};
use siting::{GRID_CELLS, OUT_OF_RANGE, PLACES, siting_place};

use crate::degrees::{self, PLACINGS};
use crate::excuses::{Kind, Tally};
use crate::report::{Failures, Outcome, Progress, hex};
use crate::rng::Rng;
use crate::sphere::{excused, in_range, on_plane, on_sphere};
use crate::ticks;

/// How often each place was given by both sides.
pub struct Reached(Vec<u64>);

impl Reached {
    /// Nothing yet.
    pub fn new() -> Self {
        Self(vec![0; usize::from(PLACES)])
    }

    /// Whether every cell and every bin was reached, said with the rarest of each.
    pub fn check(&self) -> Outcome {
        let (cells, bins) = self.0.split_at(usize::from(GRID_CELLS));
        let mut all = true;
        for (name, part) in [("cells", cells), ("far bins", bins)] {
            let reached = part.iter().filter(|count| **count > 0).count();
            let least = part.iter().min().copied().unwrap_or(0);
            println!(
                "coverage: {reached} of {} {name} reached, the rarest {least} times",
                part.len()
            );
            all &= reached == part.len();
        }
        if all {
            Outcome::Passed
        } else {
            Outcome::Failed
        }
    }
}

/// The middle of a place, seen from a site.
pub fn middle(site: Degrees, place: u16) -> Degrees {
    if place < GRID_CELLS {
        let km = |line: u16| 5.0 * f64::from(line) - 97.5;
        on_plane(site, km(place % 40), km(place / 40))
    } else {
        // A band begins within the grid's corners: 10 degrees from due north, east, south or
        // west 130 km are past the grid.
        let (sector, band) = (
            (place - GRID_CELLS) / 9,
            usize::from((place - GRID_CELLS) % 9),
        );
        let bearing = 45.0 * f64::from(sector) + [10.0, 35.0][usize::from(sector % 2)];
        let km = [
            130.0, 175.0, 225.0, 275.0, 325.0, 375.0, 450.0, 600.0, 900.0,
        ];
        on_sphere(site, bearing, km[band])
    }
}

/// Placings: the middle of every place, then `count` made pairs.
pub fn check(seed: u64, count: u64, reached: &mut Reached) -> Outcome {
    let mut rng = Rng::new(seed, "place");
    let mut progress = Progress::new("placing", count);
    let mut counter = Counter::new();
    let (mut tally, mut failures) = (Tally::default(), Failures::default());
    let (mut differ, mut guessed) = (0u64, 0u64);
    let mut made = [0u64; PLACINGS.len()];
    let mut one = |site: Degrees, at: Degrees| {
        let ours = siting_place(site.0, site.1, at.0, at.1);
        let theirs = counter.place(site, at);
        let right = ticks::place(site, at);
        guessed += u64::from(theirs == Original::place(site, at));
        if ours != right {
            let bits = hex(&[site.0, site.1, at.0, at.1]);
            failures.add(&format!(
                "place {bits}: ours {ours}, the whole numbers' {right}"
            ));
        }
        if ours == theirs {
            reached.0[usize::from(ours)] += 1;
            return;
        }
        differ += 1;
        match excused(site, at, ours, theirs) {
            Some(edges) => edges.into_iter().for_each(|(k, d)| tally.count(k, d)),
            None => failures.add(&format!(
                "place {}: ours {ours}, the original's {theirs}",
                hex(&[site.0, site.1, at.0, at.1])
            )),
        }
    };
    for place in 0..PLACES {
        let site = (rng.within(60.0), rng.within(180.0));
        one(site, middle(site, place));
    }
    let (mut done, mut pairs) = (0, Vec::new());
    while done < count {
        let way = rng.below(PLACINGS.len());
        degrees::make(&mut rng, PLACINGS[way].1, &mut pairs);
        for (site, at) in pairs.iter().take((count - done) as usize) {
            one(*site, *at);
            made[way] += 1;
            done += 1;
            progress.at(done);
        }
    }
    let seconds = progress.seconds();
    println!("placing: {count} made pairs and {PLACES} middles, {differ} differ, {seconds:.1} s");
    for ((name, _), made) in PLACINGS.iter().zip(made) {
        println!("  {made:>9} {name}");
    }
    print!(
        "{}",
        tally.table(&[
            Kind::CellEdge,
            Kind::BandEdge,
            Kind::SectorEdge,
            Kind::PolarSite,
            Kind::FarPosition
        ])
    );
    let total = count + u64::from(PLACES);
    if guessed < total {
        println!(
            "  the timed formulas place {} pairs otherwise than `heard`",
            total - guessed
        );
        failures.count += total - guessed;
    }
    failures.outcome()
}

/// Degrees at and past the ends of their range, and any bits at all.
fn any_degree(rng: &mut Rng, most: f64) -> f64 {
    let sign = rng.pick(&[-1.0, 1.0]);
    match rng.below(8) {
        0 => sign * most,
        1 => sign * most.next_up(),
        2 => sign * most.next_down(),
        3 => f64::from_bits(rng.next()),
        4 => rng.pick(&[
            f64::NAN,
            -f64::NAN,
            f64::INFINITY,
            f64::NEG_INFINITY,
            f64::MAX,
        ]),
        5 => sign * (most + rng.float(0.0, 1e-6)),
        6 => sign * rng.pick(&[0.0, f64::MIN_POSITIVE, 5e-324]),
        _ => rng.within(most),
    }
}

/// Degrees out of range: 65,535 and 4 exactly where the test written here says no. The original
/// accepts them, which is a stated difference, and so is not asked.
pub fn check_range(seed: u64, count: u64) -> Outcome {
    let mut rng = Rng::new(seed, "range");
    let mut progress = Progress::new("range", count);
    let mut failures = Failures::default();
    let mut refused = 0u64;
    for done in 0..count {
        progress.at(done);
        let mut one = || {
            if rng.one_in(4) {
                (any_degree(&mut rng, 90.0), any_degree(&mut rng, 180.0))
            } else {
                (rng.within(90.0), rng.within(180.0))
            }
        };
        let (site, at) = (one(), one());
        let good = in_range(site) && in_range(at);
        refused += u64::from(!good);
        let place = siting_place(site.0, site.1, at.0, at.1);
        let same = probes::same_place(site.0, site.1, at.0, at.1);
        let right = if good {
            place < PLACES && same <= 1
        } else {
            place == OUT_OF_RANGE && same == 4
        };
        if !right {
            failures.add(&format!(
                "range {}: place {place}, same place {same}, in range {good}",
                hex(&[site.0, site.1, at.0, at.1])
            ));
        }
    }
    println!(
        "range: {count} pairs, {refused} out of range get 65,535 and 4, the others a place and 0 or 1, {:.1} s",
        progress.seconds()
    );
    failures.outcome()
}
