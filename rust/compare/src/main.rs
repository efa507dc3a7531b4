//! Our functions against the original: random and edge-seeking inputs from a printed
//! seed. Each difference must fall under an excuse of the document, by a distance computed from
//! the original's own functions; the counts are printed, and one outside fails.

mod args;
mod degrees;
mod endurance;
mod excuses;
mod fields;
mod horizon;
mod judge;
mod kept;
mod lent;
mod lists;
mod log;
mod model;
mod place;
mod program;
mod report;
mod rng;
mod same;
mod script;
mod soups;
mod sphere;
mod stored;
mod text;
mod ticks;
mod turns;
mod vectors;
mod watch;

use std::process::ExitCode;

use oracle::Original;
use report::{Outcome, hex};

/// The checks that do not ask the original.
const WITHOUT: [&str; 4] = ["range", "stored", "turns", "endurance"];

/// Runs one check; those that ask the original are skipped where it is not there.
fn run(name: &str, args: &args::Args, reached: &mut place::Reached) -> Outcome {
    let (seed, count) = (args.seed, args.count);
    if !WITHOUT.contains(&name) && !oracle::FOUND {
        println!("{name}: skipped, there is no original to compare with");
        return Outcome::Skipped;
    }
    match name {
        "place" => place::check(seed, count, reached),
        "coverage" => reached.check(),
        "same" => same::check(seed, count),
        "horizon" => horizon::check(seed, count),
        "range" => place::check_range(seed, count),
        "judge" => judge::check(seed, args.judgings),
        "lists" => lists::Lists::small().check(seed, args.calls),
        "full" => lists::Lists::full().check(seed, args.full),
        "stored" => stored::check(),
        "turns" => turns::check(seed, args.ticks),
        _ => endurance::check(seed, args.endurance, args.seconds),
    }
}

/// Shows both answers to one input, and what lies between them.
fn show(name: &str, floats: &[f64]) {
    println!("{name} {floats:?}");
    match *floats {
        [a, b] => {
            let (ours, theirs) = (siting::horizon_km(a, b), Original::horizon_km(a, b));
            println!("ours, the original's {}", hex(&[ours, theirs]));
        }
        [a, b, c, d] if name == "same" => {
            let (held, claimed) = ((a, b), (c, d));
            let theirs = Original::same_place(held, claimed);
            println!("ours {}", probes::same_place(a, b, c, d));
            println!("the original's {}", u8::from(theirs));
            println!("{} km", Original::distance_km(held, claimed));
            println!("excuse for a difference {:?}", same::excused(held, claimed));
        }
        [a, b, c, d] => {
            let (site, at) = ((a, b), (c, d));
            let ours = siting::siting_place(a, b, c, d);
            let theirs = Original::place(site, at);
            let edges = sphere::edges_between(site, at, ours, theirs);
            println!("ours {ours}, the original's {theirs}");
            println!("east, north {:?} km", Original::local_km(site, at));
            println!("bearing {}", Original::bearing_deg(site, at));
            println!("{} km", Original::distance_km(site, at));
            println!("edges between {edges:?}");
        }
        _ => {}
    }
}

/// Writes the original's answers below a folder.
fn write_vectors(seed: u64, folder: &str) -> ExitCode {
    if !oracle::FOUND {
        return ExitCode::FAILURE;
    }
    match vectors::write(seed, folder) {
        Ok(answers) => {
            println!("{folder}: {answers} answers, seed {seed}");
            ExitCode::SUCCESS
        }
        Err(wrong) => {
            eprintln!("{folder}: {wrong}");
            ExitCode::FAILURE
        }
    }
}

fn main() -> ExitCode {
    let args = match args::parse(std::env::args().skip(1)) {
        Ok(args) => args,
        Err(wrong) => {
            eprintln!("{wrong}\n{}", args::USAGE);
            return ExitCode::from(2);
        }
    };
    if let Some(file) = &args.replay {
        return stored::replay(file);
    }
    match oracle::missing() {
        Some(line) => println!("{line}"),
        None => println!("oracle: {}", oracle::FOLDER),
    }
    if let Some((name, floats)) = args.input.as_ref().filter(|_| oracle::FOUND) {
        show(name, floats);
        return ExitCode::SUCCESS;
    }
    if let Some(folder) = &args.write_vectors {
        return write_vectors(args.seed, folder);
    }
    if let Some(folder) = args.store.as_ref().filter(|_| oracle::FOUND) {
        return stored::store(folder, args.seed);
    }
    println!(
        "seed {}, count {}, judgings {}, calls {}, on 4,096 rows {}, ticks {}, endurance {}",
        args.seed, args.count, args.judgings, args.calls, args.full, args.ticks, args.endurance
    );
    let (mut passed, mut failed, mut skipped) = (0, 0, 0);
    let mut reached = place::Reached::new();
    for name in args::CHECKS {
        if !args.only.iter().any(|only| only == name) {
            continue;
        }
        match run(name, &args, &mut reached) {
            Outcome::Passed => passed += 1,
            Outcome::Failed => {
                println!("{name}: FAILED");
                failed += 1;
            }
            Outcome::Skipped => skipped += 1,
        }
    }
    if skipped > 0 {
        println!("{skipped} skipped");
    }
    if args.all {
        failed += skipped;
    }
    println!("{passed} passed, {failed} failed");
    ExitCode::from(u8::from(failed > 0))
}
