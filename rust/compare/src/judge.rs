//! The judging against the original, and both against the document's whole numbers.

use oracle::Row;

use crate::excuses::{Kind, Tally};
use crate::fields::{Case, WAYS};
use crate::model::{self, Branch, Skipped};
use crate::report::{Failures, Outcome, Progress};
use crate::rng::Rng;

/// What was seen of one branch.
#[derive(Clone, Copy, Default)]
struct Seen {
    count: u64,
    differ: u64,
}

/// Judges made-up rows until each branch, each way of leaving places out, and exact ties of the
/// mean were reached `least` times.
/// Without our judging the original is held to the whole numbers alone, and that is no pass.
pub fn check(seed: u64, least: u64) -> Outcome {
    let mut rng = Rng::new(seed, "judge");
    let most = 2_000 * least;
    let mut progress = Progress::new("judging", most);
    let (mut tally, mut failures) = (Tally::default(), Failures::default());
    let mut seen = [Seen::default(); Branch::ALL.len()];
    let mut skips = [Seen::default(); Skipped::ALL.len()];
    let (mut ties, mut done) = (0, 0);
    while done < most && (ties < least || seen.iter().chain(&skips).any(|seen| seen.count < least))
    {
        let case = Case::new(&mut rng, WAYS[done as usize % WAYS.len()].1);
        done += 1;
        progress.at(done);
        let right = model::judge(&case.cells, &case.held, case.now_ms, case.aircraft);
        let theirs = Row::new(&case.held, &case.cells).judge(case.now_ms, case.aircraft);
        let ours = if probes::JUDGES {
            let held = &case.held;
            probes::judge(&case.cells, held.ids, held.site, case.now_ms, case.aircraft)
        } else {
            right.number
        };
        let seen = &mut seen[right.branch as usize];
        seen.count += 1;
        let mut skip = right.skipped.map(|skipped| &mut skips[skipped as usize]);
        if let Some(skip) = &mut skip {
            skip.count += 1;
        }
        ties += u64::from(right.tie.is_some());
        if ours != right.number {
            failures.add(&format!(
                "judge: ours {ours}, the whole numbers' {} ({}): {}",
                right.number,
                right.branch.name(),
                case.text()
            ));
        }
        if ours == theirs {
            continue;
        }
        seen.differ += 1;
        if let Some(skip) = &mut skip {
            skip.differ += 1;
        }
        if right.tie == Some(theirs) {
            tally.count(Kind::Tie, 0.0);
        } else {
            failures.add(&format!(
                "judge: ours {ours}, the original's {theirs} ({}): {}",
                right.branch.name(),
                case.text()
            ));
        }
    }
    println!("judging: {done} rows, {:.1} s", progress.seconds());
    println!("  {:<45} {:>9} {:>9}", "branch", "reached", "differ");
    let ends = Branch::ALL.iter().map(|branch| branch.name()).zip(seen);
    let skips = Skipped::ALL.iter().map(|skipped| skipped.name()).zip(skips);
    for (name, seen) in ends.chain(skips) {
        println!("  {name:<45} {:>9} {:>9}", seen.count, seen.differ);
        if seen.count < least {
            failures.add(&format!("judge: {name} reached under {least} times"));
        }
    }
    println!(
        "  {:<45} {ties:>9} {:>9}",
        "exact ties of the mean (in NearField)",
        tally.of(Kind::Tie)
    );
    if ties < least {
        failures.add(&format!("judge: exact ties reached under {least} times"));
    }
    print!("{}", tally.table(&[Kind::Tie]));
    match failures.outcome() {
        Outcome::Passed if !probes::JUDGES => {
            println!(
                "  probe_judge is not in libprobes.a: only the original and the whole numbers were compared"
            );
            Outcome::Skipped
        }
        outcome => outcome,
    }
}
