//! The relay: it feeds a list to a watch of 4,096 rows and keeps what the report says.

use std::collections::{BTreeMap, BTreeSet};
use std::fmt::Write;
use std::io::{IsTerminal, stderr};
use std::time::{Duration, Instant};

use siting::list::{Call, Fields, short};
use siting::{Cell, Evidence, Judgment, Key, MOST_ROWS, Refusal, Row, State, Watch};

/// Half an hour, milliseconds.
const HALF_HOUR: u64 = 1_800_000;

/// The bad lines that are said; the rest is counted.
const SAID: u64 = 20;

/// What the relay knows of a receiver beside the watch.
#[derive(Default)]
struct Known {
    aircraft: BTreeSet<u32>,
    counted: u64,
    generation: u32,
    state: Option<State>,
    by: Option<Evidence>,
    /// When it was first held wrong, and by how much.
    wrong: Option<(u64, u32)>,
    /// Its row was freed or given to another.
    gone: bool,
}

impl Known {
    /// What the columns do not say.
    fn remarks(&self) -> String {
        let mut text = String::new();
        if let Some((at_ms, off_km)) = self.wrong {
            let _ = write!(text, "  first held wrong at {}, {off_km} km", clock(at_ms));
        }
        if self.gone {
            text += "  not held at the end";
        }
        text
    }
}

/// What is drawn: a receiver as it was at one time.
pub struct Shot {
    pub row: Row,
    pub cells: Vec<Cell>,
    pub state: Option<State>,
    pub by: Option<Evidence>,
    pub now_ms: u64,
}

/// What a line asks for.
enum Line {
    Nothing,
    Call(Call),
    Anew,
}

/// Reads a line; the error says what is wrong with it.
fn line(text: &str) -> Result<Line, String> {
    let mut fields = Fields::of(text);
    let line = match fields.text("the call")? {
        "" | "digest" => Line::Nothing,
        // The relay has 4,096 rows, whatever a list asks for.
        "watch" => fields.number::<u32>("C").map(|_| Line::Anew)?,
        word @ ("lend" | "row" | "cell" | "ends") => {
            return Err(format!("'{word}': a relay has memory of its own"));
        }
        word => Call::read(word, &mut fields).map(Line::Call)?,
    };
    fields.end().map(|()| line)
}

/// The time of day of some milliseconds.
pub fn clock(ms: u64) -> String {
    format!("{:02}:{:02}", ms / 3_600_000 % 24, ms / 60_000 % 60)
}

/// A line of progress: rewritten on a terminal, else said every two seconds.
struct Progress {
    lines: usize,
    said: Instant,
}

impl Progress {
    fn new(text: &str) -> Self {
        Self {
            lines: text.lines().count(),
            said: Instant::now(),
        }
    }

    /// A round is over.
    fn at(&mut self, line: usize, relay: &Relay) {
        let terminal = stderr().is_terminal();
        let last = line >= self.lines;
        if !terminal && !last && self.said.elapsed() < Duration::from_secs(2) {
            return;
        }
        self.said = Instant::now();
        let held = relay.known.values().filter(|known| !known.gone).count();
        let (back, end) = match (terminal, last) {
            (true, false) => ("\r", ""),
            (true, true) => ("\r", "\n"),
            (false, _) => ("", "\n"),
        };
        eprint!(
            "{back}relay: {}, line {line} of {}, {held} receivers, {} rounds{end}",
            clock(relay.now_ms),
            self.lines,
            relay.rounds
        );
    }
}

/// A watch of 4,096 rows and what is said of it.
pub struct Relay {
    watch: Watch,
    known: BTreeMap<Key, Known>,
    /// The receiver to draw; none for the first that is held wrong.
    drawn: Option<Key>,
    shot: Option<Shot>,
    now_ms: u64,
    /// When the next round is due; none where the list has judgings of its own.
    due_ms: Option<u64>,
    rounds: u64,
    calls: u64,
    /// By the number of the question.
    refused: [u64; 10],
}

impl Relay {
    pub fn new(drawn: Option<Key>) -> Result<Self, Refusal> {
        Ok(Self {
            watch: Watch::new(MOST_ROWS)?,
            known: BTreeMap::new(),
            drawn,
            shot: None,
            now_ms: 0,
            due_ms: None,
            rounds: 0,
            calls: 0,
            refused: [0; 10],
        })
    }

    /// Feeds a list. Its judgings are the rounds; where it has none, all receivers are judged each
    /// half hour of the positions' times. Answers how many lines could not be read.
    pub fn run(&mut self, text: &str, name: &str) -> u64 {
        let own = !text.lines().any(|text| text.starts_with("judging "));
        let mut progress = Progress::new(text);
        let mut unread = 0;
        for (at, text) in text.lines().enumerate() {
            let rounds = self.rounds;
            match line(text) {
                Ok(Line::Nothing) => {}
                Ok(Line::Anew) => self.call(Call::Fresh),
                Ok(Line::Call(call)) => {
                    if let (Call::Position(_, heard), true) = (&call, own) {
                        self.due(heard.at_ms);
                    }
                    self.call(call);
                }
                Err(wrong) => {
                    unread += 1;
                    if unread <= SAID {
                        eprintln!("{name}:{}: {wrong}", at + 1);
                    }
                }
            }
            if self.rounds > rounds {
                progress.at(at + 1, self);
            }
        }
        if own && self.due_ms.is_some() {
            self.round(self.due_ms.unwrap_or(self.now_ms));
        }
        progress.at(progress.lines, self);
        unread
    }

    /// The rounds that are due before a position of this time: one at the end of each half hour in
    /// which something was heard.
    fn due(&mut self, at_ms: u64) {
        let next = (at_ms / HALF_HOUR)
            .saturating_add(1)
            .saturating_mul(HALF_HOUR);
        match self.due_ms {
            Some(due) if at_ms >= due => {
                self.round(due);
                self.due_ms = Some(next);
            }
            Some(_) => {}
            None => self.due_ms = Some(next),
        }
    }

    /// Judges all receivers.
    fn round(&mut self, now_ms: u64) {
        let keys: Vec<Key> = self.watch.receivers().map(Row::receiver).collect();
        for key in keys {
            let aircraft = self.known.get(&key).map_or(0, |known| known.aircraft.len());
            self.call(Call::Judging {
                key,
                now_ms,
                aircraft: aircraft as u64,
            });
        }
    }

    /// Makes a call and notes what it says.
    fn call(&mut self, call: Call) {
        self.calls += 1;
        if let Err(refusal) = self.made(call) {
            self.refused[usize::from(refusal.number())] += 1;
        }
    }

    fn made(&mut self, call: Call) -> Result<(), Refusal> {
        match call {
            Call::Fresh => {
                self.watch.fresh()?;
                self.known.values_mut().for_each(|known| known.gone = true);
            }
            Call::Claim(key, site) => {
                let claimed = self.watch.claim(&key, site)?;
                if let Some(pushed) = claimed.pushed_out {
                    self.gone(&pushed);
                }
                let known = self.known.entry(key).or_default();
                known.generation = claimed.generation;
                known.gone = false;
            }
            Call::Position(key, heard) => {
                self.watch.position(&key, &heard)?;
                let known = self.known.entry(key).or_default();
                known.counted += 1;
                known.aircraft.insert(heard.address);
            }
            Call::Judging {
                key,
                now_ms,
                aircraft,
            } => self.judge(key, now_ms, aircraft)?,
            Call::Check(key) => self.watch.check(&key).map(|_| ())?,
            Call::TakeOut(key) => {
                self.watch.take_out(&key)?;
                self.gone(&key);
            }
            Call::DropOldest => {
                let key = self.watch.drop_oldest()?;
                self.gone(&key);
            }
        }
        Ok(())
    }

    /// Judges a receiver and asks what is held; the first that is held wrong is drawn.
    fn judge(&mut self, key: Key, now_ms: u64, aircraft: u64) -> Result<(), Refusal> {
        let judgment = self.watch.judging(&key, now_ms, aircraft)?;
        let state = self.watch.check(&key)?;
        self.rounds += u64::from(now_ms > self.now_ms);
        self.now_ms = self.now_ms.max(now_ms);
        let known = self.known.entry(key).or_default();
        known.state = Some(state);
        if let Judgment::Wrong { by, .. } = judgment {
            known.by = Some(by);
        }
        if let (None, Some(off_km)) = (known.wrong, state.off_km()) {
            known.wrong = Some((now_ms, off_km));
        }
        let wanted = self.drawn.is_none_or(|drawn| drawn == key);
        if wanted && self.shot.is_none() && state.off_km().is_some() {
            self.shot = self.shot_of(&key, now_ms);
        }
        Ok(())
    }

    /// A receiver's row is another's now, or nobody's.
    fn gone(&mut self, key: &Key) {
        if let Some(known) = self.known.get_mut(key) {
            known.gone = true;
        }
    }

    /// A receiver as it is now.
    fn shot_of(&self, key: &Key, now_ms: u64) -> Option<Shot> {
        let row = *self.watch.receivers().find(|row| row.receiver() == *key)?;
        let known = self.known.get(key);
        Some(Shot {
            row,
            cells: self.watch.heard(key, now_ms)?,
            state: known.and_then(|known| known.state),
            by: known.and_then(|known| known.by),
            now_ms,
        })
    }

    /// What is to be drawn: the receiver as it was first held wrong, or as it is at the end.
    pub fn shot(&mut self) -> Option<Shot> {
        let end = |relay: &Self| relay.shot_of(&relay.drawn?, relay.now_ms);
        self.shot.take().or_else(|| end(self))
    }

    /// A line for each receiver, then the calls and the memory's checksum.
    pub fn report(&self) -> String {
        let width = self.known.keys().map(|key| short(key).len()).max();
        let width = width.unwrap_or(0).max("receiver".len());
        let mut text = format!(
            "{:<width$}  {:<9} {:>8}  {:>10} {:>10} {:>9}\n",
            "receiver", "state", "off, km", "generation", "positions", "aircraft"
        );
        for (key, known) in &self.known {
            let state = known.state.map(|state| state.to_string());
            let off = known.state.and_then(State::off_km);
            let _ = writeln!(
                text,
                "{:<width$}  {:<9} {:>8}  {:>10} {:>10} {:>9}{}",
                short(key),
                state.unwrap_or("no round".to_string()),
                off.map_or("-".to_string(), |off| off.to_string()),
                known.generation,
                known.counted,
                known.aircraft.len(),
                known.remarks()
            );
        }
        let _ = write!(text, "{} calls, {} rounds", self.calls, self.rounds);
        let refused: u64 = self.refused.iter().sum();
        let _ = writeln!(text, ", {refused} calls refused");
        for refusal in Refusal::ALL {
            let count = self.refused[usize::from(refusal.number())];
            if count > 0 {
                let _ = writeln!(text, "  {count}: {refusal}");
            }
        }
        let _ = writeln!(text, "memory: checksum {:016x}", checksum(&self.watch));
        text
    }
}

/// A number that two watches share where every byte of them is the same (FNV-1a over words).
fn checksum(watch: &Watch) -> u64 {
    let narrow = watch.ends.iter().chain(&watch.cells);
    let words = narrow
        .map(|word| u64::from(*word))
        .chain(watch.rows.iter().copied());
    words.fold(0xCBF2_9CE4_8422_2325, |sum, word| {
        (sum ^ word).wrapping_mul(0x100_0000_01B3)
    })
}
