//! A list of calls as it is made: each call is made on the original's parts joined and on the
//! document's whole numbers, and kept with its answer for our program.

use std::collections::{BTreeMap, BTreeSet};

use oracle::{CELLS, HALF, Key, Number, Original, Relay, Seen};
use siting::list::short;

use crate::excuses::Kind;
use crate::log::Log;
use crate::report::hex;
use crate::sphere::{excused, in_range};
use crate::watch::{Answer, Call, Tick, Watch, too_soon};
use crate::{model, same, text, ticks};

/// The answers wanted, each with its line.
pub type Wants = Vec<(u32, String)>;

/// One receiver of a list and its card: a table of one row that is told its calls alone.
struct Guard {
    key: Key,
    /// None once others may have pushed the receiver out, until it is not held.
    card: Option<Watch>,
    /// The other keys marked since the receiver's latest mark; none before its first.
    others: Option<BTreeSet<Key>>,
}

/// A list as it is made: each call is answered by the original and by the whole numbers, and its
/// line and answer are kept for the program.
pub struct Script<'a> {
    pub watch: Watch,
    /// The original; none for a watch that it cannot hold.
    relay: Option<Relay>,
    /// The clock of each key's last accepted judging, by which 9 is asked beside the original.
    clocks: BTreeMap<Key, u64>,
    /// Whether every judging came in rounds of all rows.
    rounds: bool,
    pub text: String,
    lines: u32,
    /// The answers wanted, each with its line.
    wants: Wants,
    calls: u64,
    /// The row number that the last accepted tick answered.
    pub next: u32,
    guard: Option<Guard>,
    pub log: &'a mut Log,
}

/// A row in a line.
fn shown(seen: &Seen) -> String {
    let Seen {
        number,
        site,
        generation,
        ids,
        run,
        ..
    } = seen;
    let key = short(&seen.key);
    format!("{key} {number:?} {site:?} generation {generation} ids {ids:?} {run:?}")
}

/// The original's answer. Questions 4 and 9 are the documents', and put here.
fn theirs(
    relay: &mut Relay,
    clocks: &mut BTreeMap<Key, u64>,
    rows: usize,
    call: &Call,
    judged: Option<Number>,
) -> Answer {
    let no = |asked: Result<Answer, u8>| asked.unwrap_or_else(Answer::No);
    match *call {
        Call::Fresh => {
            *relay = Relay::new(rows);
            clocks.clear();
            Answer::Done
        }
        Call::Claim(_, Some(site)) if !in_range(site.at) => Answer::No(4),
        Call::Claim(key, site) => {
            let (generation, pushed) = relay.claim(key, site);
            pushed.map(|key| clocks.remove(&key));
            Answer::Claimed(generation, pushed)
        }
        Call::Position { key, at, .. } if !in_range(at) => {
            Answer::No(if relay.holds(key) { 4 } else { 3 })
        }
        Call::Position {
            key,
            at,
            feet,
            address,
            at_ms,
        } => no(relay
            .position(key, at, feet, address, at_ms)
            .map(|()| Answer::Done)),
        Call::Judging { key, now_ms, .. } => match judged {
            Some(_) if too_soon(clocks.get(&key).copied(), now_ms) => Answer::No(9),
            Some(number) => {
                relay.judged(key, number);
                clocks.insert(key, now_ms);
                Answer::Judged(number)
            }
            None => Answer::No(3),
        },
        Call::Check(key) => no(relay.check(key).map(Answer::Checked)),
        Call::TakeOut(_) | Call::Drop => no(match *call {
            Call::TakeOut(key) => relay.take_out(key),
            _ => relay.drop_oldest(),
        }
        .map(|key| {
            clocks.remove(&key);
            Answer::Freed(key)
        })),
    }
}

impl<'a> Script<'a> {
    /// A list that begins with a fresh watch of so many rows.
    pub fn new(rows: usize, log: &'a mut Log) -> Self {
        Self {
            watch: Watch::fresh(rows),
            relay: oracle::FOUND.then(|| Relay::new(rows)),
            clocks: BTreeMap::new(),
            rounds: true,
            text: format!("watch {rows}\n"),
            lines: 1,
            wants: Vec::new(),
            calls: 0,
            next: 0,
            guard: None,
            log,
        }
    }

    /// Comments at the head of a list on which no call was made yet.
    pub fn headed(mut self, notes: &[&str]) -> Self {
        let head: String = notes.iter().map(|note| format!("# {note}\n")).collect();
        self.text.insert_str(0, &head);
        self.lines += notes.len() as u32;
        self
    }

    /// From now on a receiver that is not held is compared with its card, as long as fewer than C
    /// others are marked since its latest mark; beyond that from when it is not held again. For
    /// lists without `drop` and `fresh`.
    pub fn guard(&mut self, key: Key) {
        self.guard = Some(Guard {
            key,
            card: Some(Watch::fresh(1)),
            others: None,
        });
    }

    /// Holds an answer to the card's (the key pushed out aside), and follows the marks.
    fn guarded(&mut self, call: &Call, want: Answer) {
        let Some(mut guard) = self.guard.take() else {
            return;
        };
        let own = call.key() == Some(guard.key);
        if let Some(card) = guard.card.as_mut().filter(|_| own) {
            let aside = |answer| match answer {
                Answer::Claimed(generation, _) => Answer::Claimed(generation, None),
                answer => answer,
            };
            let card = card.answer(call, None);
            self.log.cards += 1;
            if card != aside(want) {
                let (line, want, card) = (call.line(), want.line(), card.line());
                self.failed(&format!("{line}: {want}, the receiver's card {card}"));
            }
        }
        let marks = matches!(call, Call::Claim(..) | Call::Position { .. });
        if marks && !matches!(want, Answer::No(_)) {
            if own {
                guard.others = Some(BTreeSet::new());
            } else if let Some(others) = &mut guard.others {
                others.extend(call.key());
                if others.len() >= self.watch.rows.len() {
                    guard.card = None;
                }
            }
        }
        if guard.card.is_none() && self.watch.find(guard.key).is_none() {
            self.guard(guard.key);
        } else {
            self.guard = Some(guard);
        }
    }

    /// The calls made so far.
    pub fn calls(&self) -> u64 {
        self.calls
    }

    /// A comment.
    pub fn note(&mut self, text: &str) {
        let comment = if text.is_empty() { "" } else { "# " };
        self.line(&format!("{comment}{text}"));
    }

    /// A line of the list.
    fn line(&mut self, text: &str) {
        self.text += text;
        self.text.push('\n');
        self.lines += 1;
    }

    /// A line that cannot be read: an error with its number, and nothing changes.
    pub fn unreadable(&mut self, line: &str) {
        if self.log.stored {
            return;
        }
        self.line(line);
        let number = self.lines;
        self.wants.push((number, format!("error {number}: ")));
        self.log.unreadable += 1;
    }

    /// Goes on with a lent watch. The original takes over its used rows where it can hold them:
    /// where both first questions are answered "yes" and no key stands twice.
    pub fn lend(&mut self, watch: Watch) {
        let text = text::lend(&watch);
        self.lines += text.lines().count() as u32;
        self.text += &text;
        self.watch = watch;
        self.rounds = false;
        self.relay = self.taken_over();
        let rows = &self.watch.rows;
        let used = self.watch.order().map_or(vec![], |order| order.used);
        let held = used
            .iter()
            .map(|row| (rows[*row].key, rows[*row].judged_ms));
        self.clocks = held.filter_map(|(key, ms)| Some((key, ms?))).collect();
        self.look();
    }

    /// The original with the watch's used rows.
    fn taken_over(&self) -> Option<Relay> {
        let watch = &self.watch;
        let order = watch.order().filter(|_| oracle::FOUND)?;
        if watch.cells.len() != CELLS * watch.rows.len() || watch.rows.is_empty() {
            return None;
        }
        let mut relay = Relay::lent(watch.rows.len());
        for row in &order.used {
            let seen = self.seen(*row);
            if relay.holds(seen.key) {
                return None;
            }
            relay.put(&seen, watch.cells_of(*row));
        }
        Some(relay)
    }

    /// A row as the original shows it.
    fn seen(&self, at: usize) -> Seen {
        let row = &self.watch.rows[at];
        Seen {
            key: row.key,
            number: None,
            site: row.site,
            generation: row.generation,
            ids: row.ids,
            run: row.run,
        }
    }

    /// A difference that no excuse covers.
    fn failed(&mut self, what: &str) {
        let (name, line) = (self.log.name, self.lines);
        self.log
            .failures
            .add(&format!("{name}: line {line}: {what}"));
    }

    /// What both sides make of a call's degrees or cells before it is made: None where an excuse
    /// lets them differ, and the call is left out; else what is known of it.
    fn foreseen(&mut self, call: &Call) -> Option<Option<u32>> {
        let Some(relay) = &self.relay else {
            return Some(None);
        };
        match *call {
            Call::Claim(key, Some(claim)) if in_range(claim.at) => {
                let row = self.watch.find(key).map(|row| self.watch.rows[row]);
                let Some(held) = row.and_then(|row| row.site) else {
                    return Some(None);
                };
                if ticks::same_place(held.at, claim.at) != Original::same_place(held.at, claim.at) {
                    let Some((kind, metres)) = same::excused(held.at, claim.at) else {
                        let bits = hex(&[held.at.0, held.at.1, claim.at.0, claim.at.1]);
                        self.failed(&format!("same {bits}"));
                        return Some(None);
                    };
                    self.log.tally.count(kind, metres);
                    return None;
                }
                Some(None)
            }
            Call::Position { key, at, .. } if in_range(at) => {
                let row = self.watch.find(key).map(|row| self.watch.rows[row]);
                let Some(site) = row.and_then(|row| row.site) else {
                    return Some(None);
                };
                let (right, theirs) = (ticks::place(site.at, at), Original::place(site.at, at));
                if right != theirs {
                    let Some(edges) = excused(site.at, at, right, theirs) else {
                        let bits = hex(&[site.at.0, site.at.1, at.0, at.1]);
                        self.failed(&format!("place {bits}"));
                        return Some(None);
                    };
                    let tally = &mut self.log.tally;
                    edges.into_iter().for_each(|(k, d)| tally.count(k, d));
                    return None;
                }
                Some(Some(u32::from(right)))
            }
            Call::Judging {
                key,
                now_ms,
                aircraft,
            } => {
                let theirs = relay.judge(key, now_ms, aircraft);
                let Some((row, theirs)) = self.watch.find(key).zip(theirs) else {
                    return Some(None);
                };
                let cells = self.watch.cells_of(row);
                let right = model::judge(cells, &self.watch.held(row), now_ms, aircraft);
                if right.number != theirs && right.tie == Some(theirs) {
                    self.log.tally.count(Kind::Tie, 0.0);
                    return None;
                }
                if right.number != theirs {
                    self.failed(&format!("{}: the original says {theirs}", call.line()));
                }
                Some(Some(right.number))
            }
            _ => Some(None),
        }
    }

    /// Makes a call on the original and on the whole numbers, and keeps it for the program; None
    /// where an excuse leaves it out.
    pub fn call(&mut self, call: Call) -> Option<Answer> {
        let Some(known) = self.foreseen(&call) else {
            self.log.left_out += 1;
            return None;
        };
        let want = self.watch.answer(&call, known);
        if let Some(relay) = &mut self.relay {
            let judged = matches!(call, Call::Judging { .. })
                .then_some(known)
                .flatten();
            let rows = self.watch.rows.len();
            let theirs = theirs(relay, &mut self.clocks, rows, &call, judged);
            if theirs != want {
                let (line, want, theirs) = (call.line(), want.line(), theirs.line());
                self.failed(&format!(
                    "{line}: the whole numbers' {want}, the original's {theirs}"
                ));
            }
        }
        self.guarded(&call, want);
        self.rounds &= !matches!(call, Call::Judging { .. } | Call::Fresh);
        self.line(&call.line());
        self.wants.push((self.lines, want.line()));
        let counted = (call.word(), want.kind());
        *self.log.answers.entry(counted).or_default() += 1;
        self.calls += 1;
        Some(want)
    }

    /// Makes a tick on the whole numbers, and keeps it for the program; the original has none. For
    /// lists that are not stored, which have the original's answers.
    pub fn tick(&mut self, tick: Tick) {
        let want = self.watch.tick(&tick);
        self.line(&tick.line());
        self.wants.push((self.lines, text::ticked_line(&want)));
        let counted = ("turn", text::ticked_kind(&want));
        *self.log.answers.entry(counted).or_default() += 1;
        self.calls += 1;
        self.next = want.map_or(self.next, |(_, next)| next);
    }

    /// Judges every row once, oldest first, as the original's `judged` asks for it, each with its
    /// own number of aircraft; then holds the `Verdicts` of all to those of each key.
    pub fn round(&mut self, now_ms: u64, mut aircraft: impl FnMut(&Key) -> u64) {
        let Some(order) = self.watch.order() else {
            return;
        };
        let (mut judged, whole) = (Vec::new(), self.rounds);
        for row in order.used {
            let key = self.watch.rows[row].key;
            let answer = self.call(Call::Judging {
                key,
                now_ms,
                aircraft: aircraft(&key),
            });
            if let Some(Answer::Judged(number)) = answer {
                judged.push((key, number));
            } else {
                return;
            }
        }
        self.rounds = whole;
        let Some(relay) = self.relay.as_mut().filter(|_| whole) else {
            return;
        };
        let other = relay.round(&judged);
        self.log.rounds += 1;
        for (key, freed) in other {
            if freed {
                self.log.carried += 1;
            } else {
                let key = short(&key);
                self.failed(&format!("{key}: `Verdicts` of all rows say otherwise"));
            }
        }
    }

    /// Compares the whole state: the original's rows with the whole numbers' here, the program's
    /// by a digest.
    pub fn look(&mut self) {
        self.line("digest");
        let digest = format!("digest {:016x}", self.watch.digest());
        self.wants.push((self.lines, digest));
        self.log.digests += 1;
        let (Some(relay), Some(order)) = (&self.relay, self.watch.order()) else {
            return;
        };
        let seen = relay.seen();
        self.log.rows += seen.len() as u64;
        let mut wrong = (seen.len() != order.used.len()).then(|| "rows held".to_string());
        for (seen, row) in seen.iter().zip(&order.used) {
            let number = seen.number.is_none_or(|number| number as usize == *row);
            let held = Seen {
                number: None,
                ..*seen
            };
            // Bit for bit: a zero's sign is kept too.
            if !number || format!("{held:?}") != format!("{:?}", self.seen(*row)) {
                wrong = Some(format!(
                    "row {row}: {}, the original's {}",
                    shown(&self.seen(*row)),
                    shown(seen)
                ));
            }
            let (ours, theirs) = (self.watch.cells_of(*row), relay.cells(seen.key));
            for half in (0..2).filter(|half| seen.ids[*half].is_some()) {
                if ours[half * HALF..][..HALF] != theirs[half * HALF..][..HALF] {
                    wrong = Some(format!("cells of half {half} of row {row}"));
                }
            }
        }
        if let Some(wrong) = wrong {
            self.failed(&format!("state: {wrong}"));
        }
    }

    /// The list's text and the answers wanted.
    pub fn done(self) -> (String, Wants) {
        self.log.calls += self.calls;
        (self.text, self.wants)
    }
}
