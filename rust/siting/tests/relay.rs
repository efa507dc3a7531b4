//! The example relay as a person runs it: its report, its picture, and its errors.

use std::collections::BTreeSet;
use std::fs;
use std::path::{Path, PathBuf};
use std::process::{Command, Output};

/// A file of this test's own.
fn own(name: &str) -> PathBuf {
    Path::new(env!("CARGO_TARGET_TMPDIR")).join(name)
}

/// Runs the example, which `cargo test` has built beside this test.
fn relay(words: &[&str]) -> Output {
    let here = std::env::current_exe().expect("a test has a path");
    let built = here
        .parent()
        .and_then(Path::parent)
        .expect("target/PROFILE/deps");
    Command::new(built.join("examples/relay"))
        .args(words)
        .output()
        .expect("cargo test builds the examples")
}

fn out(output: &Output) -> String {
    String::from_utf8_lossy(&output.stdout).into_owned()
}

fn errors(output: &Output) -> String {
    String::from_utf8_lossy(&output.stderr).into_owned()
}

/// The fields of a receiver's line of the report.
fn line<'a>(report: &'a str, key: &str) -> Vec<&'a str> {
    let found = report.lines().find(|line| line.starts_with(key));
    found.unwrap_or("").split_whitespace().collect()
}

/// The cells in which b2 of the sample day has heard something, seen from the site that it claims.
fn places_of_b2() -> usize {
    let day = concat!(env!("CARGO_MANIFEST_DIR"), "/../../samples/day.txt");
    let day = fs::read_to_string(day).expect("stored");
    let heard = day.lines().filter_map(|line| {
        let fields = line.strip_prefix("position b2 ")?.split(' ');
        let degrees: Vec<f64> = fields
            .take(2)
            .filter_map(|field| field.parse().ok())
            .collect();
        Some(siting::siting_place(
            51.2683, -1.2582, degrees[0], degrees[1],
        ))
    });
    heard.collect::<BTreeSet<u16>>().len()
}

#[test]
fn the_sample_day_is_reported_and_drawn() {
    let svg = own("b2.svg");
    let ran = relay(&["--picture", "b2", &svg.display().to_string()]);
    assert!(ran.status.success(), "{}", errors(&ran));
    let report = out(&ran);
    assert_eq!(line(&report, "a1")[1..5], ["fits", "-", "1", "36"]);
    let b2 = line(&report, "b2").join(" ");
    assert_eq!(
        b2,
        "b2 unjudged - 2 36 24 first held wrong at 09:00, 60 km not held at the end"
    );
    let drawn = fs::read_to_string(svg).expect("drawn");
    assert!(drawn.contains(">Receiver b2: held wrong, 60 km off (near field)</text>"));
    // A rectangle for each place in which b2 heard something, and 72 far bins.
    assert_eq!(drawn.matches("</title></rect>").count(), places_of_b2());
    assert_eq!(drawn.matches("</title></path>").count(), 72);
    assert!(drawn.ends_with("</svg>\n"));
}

/// Of the eight receivers that are made up, one is held wrong, whatever the seed.
#[test]
fn a_day_is_made_up() {
    for seed in ["1", "2", "77"] {
        let svg = own("made.svg").display().to_string();
        let ran = relay(&["--generate", "--seed", seed, "--picture", "1", &svg]);
        let report = out(&ran);
        let count = |state: &str| report.matches(&format!("  {state} ")).count();
        assert_eq!((count("wrong"), count("fits")), (1, 7), "{report}");
        assert!(errors(&ran).contains(&format!("seed {seed}")));
        assert!(errors(&ran).contains("--picture: this receiver was never held"));
    }
}

/// Each bad line is said with its file and number; the others are run.
#[test]
fn bad_lines_are_said() {
    let list = own("bad.txt");
    fs::write(&list, b"claim a1 51.5 -0.25 -\nbanana\nclaim a1 north 1.0 -\nlend 1 3344\ncheck\n\xff\xfe\nposition a1 51.5 -0.25 - 7 99999999999999999999\njudging a1 18446744073709551615 20\n")
        .expect("cargo's folder can be written");
    let name = list.display().to_string();
    let ran = relay(&[&name]);
    assert_eq!(ran.status.code(), Some(1));
    let said = errors(&ran);
    for want in [
        "2: unknown call 'banana'",
        "3: LAT is not understood",
        "4: 'lend': a relay has memory of its own",
        "5: KEY missing",
        "6: unknown call",
        "7: AT_MS is not understood",
    ] {
        assert!(said.contains(&format!("{name}:{want}")), "{want} in {said}");
    }
    assert_eq!(line(&out(&ran), "a1")[1..5], ["unjudged", "-", "1", "0"]);
    let missing = relay(&["no-such-file"]);
    assert!(errors(&missing).contains("relay: no-such-file: "));
    assert_eq!(relay(&["--seed", "x"]).status.code(), Some(2));
}

/// The largest times, without judgings: the relay's own rounds do not wrap.
#[test]
fn the_last_half_hour_is_a_round() {
    let list = own("late.txt");
    let late = "claim a 1.0 1.0 -\nposition a 1.0 1.0 - 1 0\nposition a 1.0 1.0 - 1 18446744073709551615\n";
    fs::write(&list, late).expect("cargo's folder can be written");
    let ran = relay(&[&list.display().to_string()]);
    assert!(ran.status.success(), "{}", errors(&ran));
    assert_eq!(line(&out(&ran), "a")[1..5], ["unjudged", "-", "1", "2"]);
}
