//! What was seen over all lists of calls, and the tables that say it.

use std::collections::BTreeMap;

use crate::excuses::{Kind, Tally};
use crate::report::{Failures, Outcome};

/// The kinds of answers that each call can get, all of which the lists must reach.
const REACHED: [(&str, &[&str]); 8] = [
    ("fresh", &["ok", "no 1"]),
    ("claim", &["ok", "pushes", "no 1", "no 2", "no 4"]),
    (
        "position",
        &["ok", "no 1", "no 2", "no 3", "no 4", "no 5", "no 6"],
    ),
    (
        "judging",
        &[
            "unjudged",
            "fits",
            "horizon",
            "nearfield",
            "nothingnear",
            "no 1",
            "no 2",
            "no 3",
            "no 9",
        ],
    ),
    (
        "check",
        &["unjudged", "fits", "wrong", "no 1", "no 2", "no 3", "no 7"],
    ),
    ("takeout", &["ok", "no 1", "no 2", "no 3"]),
    ("drop", &["ok", "no 1", "no 2", "no 3"]),
    ("turn", &["ok", "none", "no 1", "no 2", "no 8"]),
];

/// What was seen over all lists.
#[derive(Default)]
pub struct Log {
    /// The check's name.
    pub name: &'static str,
    /// About as many calls are in a list.
    pub length: u64,
    /// The rows of every watch; none where a list chooses a few.
    pub size: Option<usize>,
    pub tally: Tally,
    pub failures: Failures,
    /// How often each call had each kind of answer.
    pub answers: BTreeMap<(&'static str, &'static str), u64>,
    pub calls: u64,
    /// Calls left out because of an excuse.
    pub left_out: u64,
    /// Digests compared, rows of the original compared, rounds of all rows.
    pub digests: u64,
    pub rows: u64,
    pub rounds: u64,
    /// Runs that `Verdicts` of all carried on for a key whose row was freed.
    pub carried: u64,
    /// Lines that cannot be read.
    pub unreadable: u64,
    /// Answers to a protected receiver that were held to its card's.
    pub cards: u64,
    /// Whether the lists are stored: without unreadable lines, whose answers are in the program's
    /// own words, and without ticks, which the original has not.
    pub stored: bool,
    /// Whether the program takes a watch of no rows.
    pub empty: bool,
}

impl Log {
    /// For lists of about so many calls.
    pub fn new(length: u64) -> Self {
        Self {
            name: "lists",
            length,
            ..Self::default()
        }
    }

    /// Whether a call's kind of answer must be reached. On watches of a chosen size only that each
    /// call is accepted, and that receivers are pushed out.
    fn needed(&self, call: &str, said: &str) -> bool {
        let made = !(self.stored && call == "turn");
        made && (self.size.is_none() || ["ok", "pushes", "unjudged"].contains(&said))
    }

    /// The state is looked at so many times more rarely: on 4,096 rows that takes long.
    pub fn rarer(&self) -> usize {
        self.size.map_or(1, |rows| rows.div_ceil(128))
    }

    /// Whether each call had each answer that it can get, said in a line for each.
    pub fn reached(&mut self) {
        for (call, answers) in REACHED {
            let counts: Vec<(&str, u64)> = answers
                .iter()
                .map(|said| {
                    let count = self.answers.get(&(call, *said));
                    (*said, count.copied().unwrap_or(0))
                })
                .collect();
            let text: Vec<String> = counts
                .iter()
                .map(|(said, n)| format!("{said} {n}"))
                .collect();
            println!("  {call:<8} {}", text.join(", "));
            if counts
                .iter()
                .any(|(said, count)| *count == 0 && self.needed(call, said))
            {
                self.failures.add(&format!(
                    "{}: an answer to {call} was never reached",
                    self.name
                ));
            }
        }
    }

    /// Passed where no difference was without an excuse.
    pub fn outcome(&self) -> Outcome {
        self.failures.outcome()
    }

    /// The tables: the lists and calls of each way by name, the answers, the excuses.
    pub fn say(&mut self, made_by: &[(&str, u64, u64)], seconds: f64) {
        let lists: u64 = made_by.iter().map(|(_, lists, _)| lists).sum();
        println!(
            "{}: {} calls in {lists} lists, {} left out by an excuse; {} digests, {} rows of the original, {} rounds of all rows, {} answers of a card, {} unreadable lines; {seconds:.1} s",
            self.name,
            self.calls,
            self.left_out,
            self.digests,
            self.rows,
            self.rounds,
            self.cards,
            self.unreadable
        );
        for (name, lists, calls) in made_by {
            println!("  {calls:>9} calls, {lists:>4} lists: {name}");
        }
        self.reached();
        print!(
            "{}",
            self.tally.table(&[
                Kind::CellEdge,
                Kind::OneKilometre,
                Kind::BandEdge,
                Kind::SectorEdge,
                Kind::PolarSite,
                Kind::FarPosition,
                Kind::Tie
            ])
        );
        println!(
            "  {:<52} {:>9}",
            "kept by `Verdicts` for a key whose row was freed", self.carried
        );
    }
}
