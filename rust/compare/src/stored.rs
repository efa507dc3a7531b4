//! Lists of calls written down with the original's answers, to be replayed without any Rust at
//! hand; and lists answered by the whole numbers.

use std::collections::BTreeSet;
use std::io::Read;
use std::process::ExitCode;

use oracle::{Claim, Degrees, Key, State};

use crate::lent::Lent;
use crate::lists;
use crate::log::Log;
use crate::program;
use crate::report::Outcome;
use crate::rng::Rng;
use crate::script::{Script, Wants};
use crate::soups;
use crate::sphere::on_sphere;
use crate::text;
use crate::watch::{Answer, Call};

/// Midnight of the sample's day (Monday, 2 March 2026), milliseconds.
const MIDNIGHT: u64 = 1_772_409_600_000;

/// Half an hour.
const HALF_HOUR: u64 = 1_800_000;

/// Where both antennas of the sample stand.
const ANTENNA: Degrees = (51.4775, -0.4614);

/// A key of one byte.
fn key(last: u8) -> Key {
    let mut key = [0; 32];
    key[31] = last;
    key
}

/// Degrees of four decimals: some metres.
fn short(at: Degrees) -> Degrees {
    let four = |x: f64| (x * 1e4).round() / 1e4;
    (four(at.0), four(at.1))
}

/// The sample: a receiver that sits where it claims and one whose claim is 60 km off, both judged
/// each half hour until the second is held wrong; then its owner puts the site right.
fn day<'a>(rng: &mut Rng, log: &'a mut Log) -> Script<'a> {
    let (right, wrong) = (key(0xA1), key(0xB2));
    let mut s = Script::new(4, log).headed(&[
        "A day of two receivers, from six in the morning on; `cargo test -p compare` in rust/ replays it",
        "Both antennas stand at 51.4775 -0.4614 and hear aircraft up to 40 km away.",
        "a1 claims that site. b2 claims one that is 60 km to the west-south-west of it.",
        "The watch has room for four receivers.",
    ]);
    s.note("");
    s.note("claim KEY LAT LON ALT: the answer is the generation and the key pushed out, or -");
    let off = short(on_sphere(ANTENNA, 247.5, 60.0));
    let at = |at| {
        Some(Claim {
            at,
            alt_m: Some(40),
        })
    };
    s.call(Call::Claim(right, at(ANTENNA)));
    s.call(Call::Claim(wrong, at(off)));
    s.note("");
    s.note("position KEY LAT LON FEET ADDRESS AT_MS, then each half hour judging KEY NOW_MS AIRCRAFT and check KEY");
    let fleet: Vec<u32> = (0..40)
        .map(|_| 0x40_0000 + rng.below(0x4_0000) as u32)
        .collect();
    let mut heard = [BTreeSet::new(), BTreeSet::new()];
    let mut end = MIDNIGHT;
    for half in 13..=48u64 {
        let now_ms = MIDNIGHT + half * HALF_HOUR;
        s.note("");
        s.note(&format!("{:02}:{:02}", half / 2, half % 2 * 30));
        for (receiver, heard) in [right, wrong].into_iter().zip(&mut heard) {
            for _ in 0..6 {
                let km = rng.float(0.0, 40.0);
                let at = short(on_sphere(ANTENNA, rng.float(0.0, 360.0), km));
                let address = rng.pick(&fleet);
                heard.insert(address);
                s.call(Call::Position {
                    key: receiver,
                    at,
                    feet: Some(25 * rng.int(80, 1_560) as i32),
                    address,
                    at_ms: now_ms - rng.next() % HALF_HOUR,
                });
            }
        }
        s.round(now_ms, |key| {
            heard[usize::from(key[31] == 0xB2)].len() as u64
        });
        s.call(Call::Check(right));
        let check = s.call(Call::Check(wrong));
        end = now_ms;
        if matches!(check, Some(Answer::Checked(State::Wrong(_)))) {
            break;
        }
    }
    let now_ms = end + HALF_HOUR;
    s.note("");
    s.note("b2 is held wrong. Its owner puts the site right: a move, so its cells begin again.");
    s.call(Call::Claim(wrong, at(ANTENNA)));
    s.note("Until the next judging a check speaks of the old site.");
    s.call(Call::Check(wrong));
    s.call(Call::Judging {
        key: wrong,
        now_ms,
        aircraft: 40,
    });
    s.call(Call::Check(wrong));
    s.note("");
    s.note("A key that is not held, a latitude past 90 degrees, and a receiver taken out.");
    s.call(Call::Check(key(0xC3)));
    s.call(Call::Position {
        key: right,
        at: (91.0, 0.5),
        feet: None,
        address: 1,
        at_ms: now_ms,
    });
    s.call(Call::TakeOut(wrong));
    s
}

/// A short list of each way, one after the other.
fn short_lists(seed: u64, log: &mut Log) -> (String, String) {
    let (mut list, mut out) = (String::new(), String::new());
    for (name, maker) in soups::MAKERS {
        let (text, wants) = lists::made(seed, name, maker, log);
        list += &format!("# {name}\n{text}");
        out.extend(wants.into_iter().map(|(_, want)| want + "\n"));
    }
    (list, out)
}

/// Writes a list and its answers.
fn write(folder: &str, name: &str, list: &str, out: &str) -> std::io::Result<()> {
    std::fs::create_dir_all(folder)?;
    std::fs::write(format!("{folder}/{name}.txt"), list)?;
    std::fs::write(format!("{folder}/{name}.out"), out)?;
    println!(
        "{folder}/{name}.txt: {} lines, {} answers",
        list.lines().count(),
        out.lines().count()
    );
    Ok(())
}

/// Writes the stored lists: the sample day, and one with a short list of each way, in which each
/// call has each answer that it can get.
pub fn store(folder: &str, seed: u64) -> ExitCode {
    let mut log = Log::new(240);
    log.stored = true;
    let (day, wants) = day(&mut Rng::new(6, "day"), &mut log).done();
    let answers: String = wants.into_iter().map(|(_, want)| want + "\n").collect();
    let (list, out) = short_lists(seed, &mut log);
    log.reached();
    let written =
        write(folder, "day", &day, &answers).and_then(|()| write(folder, "calls", &list, &out));
    if let Err(wrong) = &written {
        eprintln!("{folder}: {wrong}");
    }
    let good = matches!(log.outcome(), Outcome::Passed) && written.is_ok();
    ExitCode::from(u8::from(!good))
}

/// Prints the whole numbers' answers to a list.
pub fn replay(file: &str) -> ExitCode {
    let mut list = String::new();
    let read = if file == "-" {
        std::io::stdin().read_to_string(&mut list).map(|_| ())
    } else {
        std::fs::read_to_string(file).map(|text| list = text)
    };
    match read {
        Ok(()) => {
            print!("{}", text::replay(&list));
            ExitCode::SUCCESS
        }
        Err(wrong) => {
            eprintln!("{file}: {wrong}");
            ExitCode::from(2)
        }
    }
}

/// The lists that are stored.
const STORED: [&str; 2] = ["day", "calls"];

/// Answers a stored list through the safe crate, by the whole numbers and, where it is asked, by
/// the program: each must have the stored answers, and all the same digest at the end. The number
/// of answers; the error says what differs.
fn replayed(name: &str, asked: bool) -> Result<usize, String> {
    let folder = concat!(env!("CARGO_MANIFEST_DIR"), "/../../samples");
    let read = |ending: &str| {
        let file = format!("{folder}/{name}.{ending}");
        std::fs::read_to_string(&file).map_err(|wrong| format!("{file}: {wrong}"))
    };
    let list = read("txt")? + "digest\n";
    let right = text::replay(&list);
    let digest = right.lines().last().unwrap_or("");
    let stored = read("out")? + digest + "\n";
    let lines = |answers: &str| -> Wants {
        let numbered = answers.lines().zip(1..);
        numbered.map(|(line, at)| (at, line.to_string())).collect()
    };
    let wants = lines(&stored);
    let held = |who: &str, got: &str| {
        lists::settle(&wants, got).map_err(|wrong| format!("{name}.out, {who}: {wrong}"))
    };
    held("the whole numbers", &right)?;
    held("the safe crate", &text::replay_by::<Lent>(&list))?;
    if asked {
        held("the program", &program::ask(&list)?)?;
    }
    Ok(wants.len())
}

/// The stored lists, through all who can be asked.
pub fn check() -> Outcome {
    let why = match lists::unasked(64) {
        Ok(why) => why,
        Err(wrong) => {
            println!("stored: {wrong}");
            return Outcome::Failed;
        }
    };
    for name in STORED {
        match replayed(name, why.is_none()) {
            Ok(answers) => println!("stored: {name}: {answers} answers and a digest the same"),
            Err(wrong) => {
                println!("stored: {wrong}");
                return Outcome::Failed;
            }
        }
    }
    match why {
        None => println!("  by the safe crate, the program `calls` and the whole numbers"),
        Some(why) => {
            println!("  by the safe crate and the whole numbers; our program is not asked: {why}")
        }
    }
    Outcome::Passed
}

#[cfg(test)]
mod tests {
    use super::*;

    /// The stored lists have the stored answers, where the original is not at hand too.
    #[test]
    fn stored_lists_come_back() {
        for name in STORED {
            assert!(
                replayed(name, false).is_ok_and(|answers| answers > 100),
                "{name}"
            );
        }
    }

    /// So do the ticks of `samples/turns.txt`; of a line that cannot be read its number is held.
    #[test]
    fn stored_ticks_come_back() {
        let folder = concat!(env!("CARGO_MANIFEST_DIR"), "/../../samples");
        let read = |ending: &str| std::fs::read_to_string(format!("{folder}/turns.{ending}"));
        let (list, out) = (read("txt").expect("stored"), read("out").expect("stored"));
        let wanted = |line: &str| match line.split_once(": ") {
            Some((error, _)) => format!("{error}: "),
            None => line.to_string(),
        };
        let wants: Wants = out
            .lines()
            .zip(1..)
            .map(|(line, at)| (at, wanted(line)))
            .collect();
        assert_eq!(lists::settle(&wants, &text::replay(&list)), Ok(()));
        let ours = text::replay_by::<Lent>(&list);
        assert_eq!(lists::settle(&wants, &ours), Ok(()));
    }
}
