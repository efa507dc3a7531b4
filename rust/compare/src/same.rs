//! Whether two sites are one place, against the original.

use oracle::{Degrees, Original};

use crate::degrees::{self, SAME};
use crate::excuses::{Kind, POLAR_DEG, Tally};
use crate::report::{Failures, Outcome, Progress, hex};
use crate::rng::Rng;
use crate::ticks;

/// The excuse for a difference, with the distance to the 1 km edge in metres.
pub fn excused(held: Degrees, claimed: Degrees) -> Option<(Kind, f64)> {
    if held.0.abs() > POLAR_DEG || claimed.0.abs() > POLAR_DEG {
        return Some((Kind::PolarSite, 0.0));
    }
    let metres = (Original::distance_km(held, claimed) - 1.0).abs() * 1_000.0;
    Kind::OneKilometre
        .reaches(metres)
        .then_some((Kind::OneKilometre, metres))
}

/// `count` made pairs.
pub fn check(seed: u64, count: u64) -> Outcome {
    let mut rng = Rng::new(seed, "same place");
    let mut progress = Progress::new("same place", count);
    let (mut tally, mut failures) = (Tally::default(), Failures::default());
    let (mut differ, mut same, mut done) = (0u64, 0u64, 0);
    let mut made = [0u64; SAME.len()];
    let mut pairs = Vec::new();
    while done < count {
        let way = rng.below(SAME.len());
        degrees::make(&mut rng, SAME[way].1, &mut pairs);
        for (held, claimed) in pairs.iter().copied().take((count - done) as usize) {
            made[way] += 1;
            done += 1;
            progress.at(done);
            let ours = probes::same_place(held.0, held.1, claimed.0, claimed.1);
            let theirs = u8::from(Original::same_place(held, claimed));
            let right = u8::from(ticks::same_place(held, claimed));
            same += u64::from(theirs);
            if ours != right {
                let bits = hex(&[held.0, held.1, claimed.0, claimed.1]);
                failures.add(&format!(
                    "same {bits}: ours {ours}, the whole numbers' {right}"
                ));
            }
            if ours == theirs {
                continue;
            }
            differ += 1;
            match excused(held, claimed) {
                Some((kind, metres)) if ours <= 1 => tally.count(kind, metres),
                _ => failures.add(&format!(
                    "same {}: ours {ours}, the original's {theirs}",
                    hex(&[held.0, held.1, claimed.0, claimed.1])
                )),
            }
        }
    }
    let seconds = progress.seconds();
    println!("same place: {count} pairs, {same} the same, {differ} differ, {seconds:.1} s");
    for ((name, _), made) in SAME.iter().zip(made) {
        println!("  {made:>9} {name}");
    }
    print!("{}", tally.table(&[Kind::OneKilometre, Kind::PolarSite]));
    failures.outcome()
}

#[cfg(test)]
mod tests {
    use super::excused;
    use crate::excuses::Kind;
    use crate::sphere::on_sphere;

    #[test]
    fn a_metre_and_no_more() {
        if !oracle::FOUND {
            return;
        }
        let held = (40.0, -3.0);
        let kind = |km: f64| excused(held, on_sphere(held, 70.0, km)).map(|(kind, _)| kind);
        assert_eq!(kind(1.000_9), Some(Kind::OneKilometre));
        assert_eq!(kind(0.999_1), Some(Kind::OneKilometre));
        assert_eq!(kind(1.001_1), None);
        assert_eq!(kind(0.0), None);
        let polar = excused((89.5, 0.0), (-89.5, 0.0));
        assert_eq!(polar.map(|(kind, _)| kind), Some(Kind::PolarSite));
    }
}
