//! Whole lists of calls: our program, our calls through the safe crate, the original's parts
//! joined, and the document's whole numbers, answer by answer and, at intervals and at the end, row
//! by row.

use std::path::PathBuf;

use crate::lent::Lent;
use crate::log::Log;
use crate::program::{self, Running};
use crate::report::{Failures, Outcome, Progress};
use crate::rng::Rng;
use crate::script::Wants;
use crate::soups::{FULL, MAKERS, Maker};
use crate::text;

/// A list given to the program.
struct Given {
    name: String,
    text: String,
    wants: Wants,
    running: Running,
}

/// Where a list with a wrong answer is written.
fn folder() -> PathBuf {
    concat!(env!("CARGO_MANIFEST_DIR"), "/../target/lists").into()
}

/// Writes a list down; says where.
fn keep(name: &str, text: &str) -> String {
    let file = folder().join(format!("{name}.txt"));
    match std::fs::create_dir_all(folder()).and_then(|()| std::fs::write(&file, text)) {
        Ok(()) => file.display().to_string(),
        Err(wrong) => format!("not written, {wrong}"),
    }
}

/// Compares the program's answers; the first that is not the one wanted is said with its line.
pub fn settle(wants: &[(u32, String)], got: &str) -> Result<(), String> {
    let mut lines = got.lines();
    for (line, want) in wants {
        let got = lines.next().unwrap_or("nothing");
        if !text::answers(want, got) {
            return Err(format!("line {line}: `{got}`, wanted `{want}`"));
        }
    }
    match lines.next() {
        Some(more) => Err(format!("`{more}` after the last answer")),
        None => Ok(()),
    }
}

impl Given {
    /// Starts the program on a list.
    fn to_program(name: String, text: String, wants: Wants) -> Result<Self, String> {
        program::start(text.clone()).map(|running| Self {
            name,
            text,
            wants,
            running,
        })
    }

    /// Waits for the answers and compares them; a list with a wrong one is written down.
    fn settle(self, failures: &mut Failures) {
        let got = self.running.answers();
        let Err(wrong) = got.and_then(|got| settle(&self.wants, &got)) else {
            return;
        };
        let place = keep(&self.name, &self.text);
        failures.add(&format!(
            "lists: {}: {wrong} (the list: {place})",
            self.name
        ));
    }
}

/// Why the program is not asked: it is not there, does not know the watch yet or not one of so
/// many rows; None where it does. One that fails at the first call is an error.
pub fn unasked(rows: usize) -> Result<Option<String>, String> {
    let path = program::path();
    if !path.is_file() {
        let built = "`rt check calls` builds it; SITING_CALLS names another";
        return Ok(Some(format!("{} is not there ({built})", path.display())));
    }
    // A list has every kind of line, so a program is asked once it knows them all.
    let answer = program::ask(&format!("{EVERY_LINE}watch {rows}\nfresh\n"))?;
    match answer
        .lines()
        .find(|line| *line != "ok" && *line != "ok 0 0" && !line.starts_with("digest "))
    {
        None => Ok(None),
        Some(unknown) if unknown.starts_with("error ") => {
            Ok(Some(format!("{}: {unknown}", path.display())))
        }
        Some(other) => Err(format!("{}: `{other}` to fresh", path.display())),
    }
}

/// A line of each kind that says something of a watch.
const EVERY_LINE: &str = "watch 1\nfresh\nturn 0 1 1\ndigest\nlend 1 3344\nrow 0 1 - 0 - - - - - -\ncell 0 65280\nends - - 0\nfresh\n";

/// Makes one list; its text and the answers wanted.
pub fn made(seed: u64, name: &str, maker: Maker, log: &mut Log) -> (String, Wants) {
    let mut rng = Rng::new(seed, name);
    let mut script = maker(&mut rng, log);
    script.look();
    script.done()
}

/// What is compared by lists: the ways in which they are made, and on how many rows.
pub struct Lists {
    name: &'static str,
    /// A name, the maker, and about how many calls a list has.
    ways: Vec<(&'static str, Maker, u64)>,
    /// The rows of every watch; none where a list chooses a few.
    rows: Option<usize>,
}

impl Lists {
    /// On few rows.
    pub fn small() -> Self {
        Self {
            name: "lists",
            ways: MAKERS.map(|(name, maker)| (name, maker, 4_000)).to_vec(),
            rows: None,
        }
    }

    /// On as many rows as a watch can have.
    pub fn full() -> Self {
        Self {
            name: "full",
            ways: FULL.to_vec(),
            rows: Some(siting::MOST_ROWS),
        }
    }

    /// Lists until `calls` calls were made, each way at least twice on few rows, once on many.
    pub fn check(&self, seed: u64, calls: u64) -> Outcome {
        let program = match unasked(self.rows.unwrap_or(64)) {
            Ok(why) => why,
            Err(wrong) => {
                println!("{}: {wrong}", self.name);
                return Outcome::Failed;
            }
        };
        if let Some(why) = &program {
            println!("{}: our program is not asked: {why}", self.name);
        }
        let mut progress = Progress::new(self.name, calls);
        let mut log = Log::new(0);
        log.name = self.name;
        log.size = self.rows;
        log.empty =
            program.is_none() && program::ask("lend 0 0\ncheck 1\n") == Ok("no 1\n".to_string());
        let made_by = self.compare(seed, calls, program.is_none(), &mut log, &mut progress);
        log.say(&made_by, progress.seconds());
        match log.outcome() {
            Outcome::Passed if program.is_some() => {
                println!("  our calls were asked through the safe crate, the program was not");
                Outcome::Passed
            }
            outcome => outcome,
        }
    }

    /// Makes the lists and compares them; how many lists and calls each way had.
    fn compare(
        &self,
        seed: u64,
        calls: u64,
        asked: bool,
        log: &mut Log,
        progress: &mut Progress,
    ) -> Vec<(&'static str, u64, u64)> {
        let mut made_by: Vec<_> = self.ways.iter().map(|way| (way.0, 0, 0)).collect();
        let least = self.ways.len() * if self.rows.is_none() { 2 } else { 1 };
        let mut given: Option<Given> = None;
        let mut lists = 0;
        while (log.calls < calls || lists < least) && log.failures.count <= 20 {
            let way = lists % self.ways.len();
            let (kind, maker, length) = self.ways[way];
            log.length = length;
            let name = match self.rows {
                None => format!("list-{seed}-{lists}"),
                Some(rows) => format!("list-{rows}-{seed}-{lists}"),
            };
            let (before, wrong) = (log.calls, log.failures.count);
            let (text, wants) = made(seed, &name, maker, log);
            if log.failures.count > wrong {
                println!("  in {name}, {kind}");
            }
            made_by[way].1 += 1;
            made_by[way].2 += log.calls - before;
            lists += 1;
            if let Err(wrong) = settle(&wants, &text::replay_by::<Lent>(&text)) {
                let what = format!("{}: {name} through the safe crate: {wrong}", self.name);
                log.failures.add(&what);
                keep(&name, &text);
            }
            // The program works on the last list while the next one is made.
            if let Some(given) = given.take() {
                given.settle(&mut log.failures);
            }
            if asked {
                match Given::to_program(name, text, wants) {
                    Ok(started) => given = Some(started),
                    Err(wrong) => log.failures.add(&format!("{}: {wrong}", self.name)),
                }
            }
            progress.at(log.calls / 1_024 * 1_024);
        }
        if let Some(given) = given {
            given.settle(&mut log.failures);
        }
        made_by
    }
}

#[cfg(test)]
mod tests {
    use super::*;
    use crate::script::Script;
    use crate::watch::{Answer, Call};

    /// Each way's list, read back from its text, has the answers that were wanted; one answer
    /// changed, left out or added is seen.
    #[test]
    fn lists_come_back_from_their_text() {
        if !oracle::FOUND {
            return;
        }
        let mut log = Log::new(1_000);
        for (name, maker) in MAKERS {
            let (list, wants) = made(11, name, maker, &mut log);
            let got = text::replay(&list);
            assert_eq!(settle(&wants, &got), Ok(()), "{name}");
            let last = wants.len() - 1;
            let lines: Vec<&str> = got.lines().collect();
            assert!(settle(&wants, &lines[..last].join("\n")).is_err());
            assert!(settle(&wants[..last], &got).is_err());
            let mut other = wants;
            other[last / 2].1 += "1";
            assert!(settle(&other, &got).is_err());
        }
        assert!(matches!(log.outcome(), Outcome::Passed));
    }

    /// The card is another's affair only while it is protected: beyond, a receiver that was
    /// pushed out answers 3 where its card would not, and that is no failure.
    #[test]
    fn beyond_protection_a_receiver_differs_from_its_card() {
        let mut log = Log::new(1);
        let mut script = Script::new(1, &mut log);
        let (receiver, other) = ([1; 32], [2; 32]);
        script.guard(receiver);
        script.call(Call::Claim(receiver, None));
        script.call(Call::Check(receiver));
        script.call(Call::Claim(other, None));
        let pushed = script.call(Call::Check(receiver));
        assert_eq!(pushed, Some(Answer::No(3)));
        drop(script);
        assert!(matches!(log.outcome(), Outcome::Passed));
        assert_eq!(log.cards, 3);
    }
}
