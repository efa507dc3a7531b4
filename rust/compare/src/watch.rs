//! The document's watch and its seven calls over whole numbers, written a second time and plainly:
//! our program must equal it always, on any lent watch. The chains are read off as two lists of
//! row numbers, changed as lists, and written back.

use oracle::{CELLS, Claim, Degrees, HALF, Held, Key, Number, Run, State};

use crate::model::{self, EMPTY, EPOCH_MS};
use crate::sphere::in_range;
use crate::{ticks, turns};

/// A row's number, or none.
pub type Link = Option<u32>;

/// A row of the table.
#[derive(Clone, Copy, Debug, PartialEq)]
pub struct Row {
    pub key: Key,
    pub site: Option<Claim>,
    pub generation: u32,
    /// The ids of the even and of the odd half.
    pub ids: [Option<u64>; 2],
    pub run: Option<Run>,
    /// The clock of the last accepted judging.
    pub judged_ms: Option<u64>,
    pub before: Link,
    pub after: Link,
}

impl Row {
    /// A fresh row, in no chain.
    pub const UNMADE: Self = Self {
        key: [0; 32],
        site: None,
        generation: 0,
        ids: [None; 2],
        run: None,
        judged_ms: None,
        before: None,
        after: None,
    };
}

/// A watch as it is lent.
#[derive(Clone, Debug, PartialEq)]
pub struct Watch {
    pub rows: Vec<Row>,
    pub cells: Vec<u32>,
    pub first: Link,
    pub last: Link,
    pub free: Link,
}

/// A call with its arguments.
#[derive(Clone, Copy, Debug, PartialEq)]
pub enum Call {
    Fresh,
    Claim(Key, Option<Claim>),
    Position {
        key: Key,
        at: Degrees,
        feet: Option<i32>,
        address: u32,
        at_ms: u64,
    },
    Judging {
        key: Key,
        now_ms: u64,
        aircraft: u64,
    },
    Check(Key),
    TakeOut(Key),
    Drop,
}

/// What a call answers.
#[derive(Clone, Copy, Debug, PartialEq, Eq)]
pub enum Answer {
    /// Fresh and position: accepted, no more.
    Done,
    /// The generation, and the key pushed out.
    Claimed(u32, Option<Key>),
    Judged(Number),
    Checked(State),
    Freed(Key),
    /// The number of the question that was answered "no".
    No(u8),
}

/// A tick of the turn keeper, with a list of so many keys.
#[derive(Clone, Copy, Debug, PartialEq, Eq)]
pub struct Tick {
    pub next: u32,
    pub k: u32,
    pub room: u32,
}

/// What a tick answers: the keys that it gives and the next row number, or the number of the
/// question that was answered "no".
pub type Ticked = Result<(Vec<Key>, u32), u8>;

impl Tick {
    /// The list's keys, all the same; past what any watch has rows, more are as many.
    pub fn list(&self, key: Key) -> Vec<Key> {
        vec![key; self.room.min(4_097) as usize]
    }
}

/// Whether a judging is earlier than half an hour after the last one, a clock gone back included.
pub fn too_soon(kept: Option<u64>, now_ms: u64) -> bool {
    kept.is_some_and(|kept| u128::from(now_ms) < u128::from(kept) + 1_800_000)
}

/// The row numbers in the used chain, oldest first, and in the free chain.
pub struct Order {
    pub used: Vec<usize>,
    free: Vec<usize>,
}

impl Watch {
    /// C fresh rows, all in the free chain, in ascending number.
    pub fn fresh(rows: usize) -> Self {
        let mut watch = Self::lent(rows, CELLS * rows);
        let free = (0..rows).collect();
        watch.relink(&Order { used: vec![], free });
        watch
    }

    /// Rows in no chain, and any number of empty cells.
    pub fn lent(rows: usize, cells: usize) -> Self {
        Self {
            rows: vec![Row::UNMADE; rows],
            cells: vec![EMPTY; cells],
            first: None,
            last: None,
            free: None,
        }
    }

    /// Question 1.
    fn sized(&self) -> bool {
        let rows = self.rows.len();
        (1..=4_096).contains(&rows) && self.cells.len() == CELLS * rows
    }

    /// The rows of a chain; None where it leaves the rows or does not end.
    fn chain(&self, first: Link) -> Option<Vec<usize>> {
        let (mut chain, mut at) = (Vec::new(), first);
        while let Some(number) = at {
            let row = self.rows.get(number as usize)?;
            if chain.len() == self.rows.len() {
                return None;
            }
            chain.push(number as usize);
            at = row.after;
        }
        Some(chain)
    }

    /// Question 2; the chains where it is answered "yes".
    pub fn order(&self) -> Option<Order> {
        let (used, free) = (self.chain(self.first)?, self.chain(self.free)?);
        let mut seen = vec![false; self.rows.len()];
        let mut first = |row: &usize| !std::mem::replace(&mut seen[*row], true);
        let once = used.len() + free.len() == self.rows.len()
            && used.iter().chain(&free).all(|row| first(row));
        let link = |row: Option<&usize>| row.map(|row| *row as u32);
        let back = (0..used.len()).all(|k| {
            let before = k.checked_sub(1).and_then(|k| used.get(k));
            self.rows[used[k]].before == link(before)
        });
        let step = |off: u32| off.is_multiple_of(5) && (5..=800).contains(&off);
        let held = self.rows.iter().all(|row| {
            let off = row.run.and_then(|run| run.off_km);
            row.site.is_none_or(|site| in_range(site.at)) && off.is_none_or(step)
        });
        (once && back && self.last == link(used.last()) && held).then_some(Order { used, free })
    }

    /// Writes the chains back.
    fn relink(&mut self, order: &Order) {
        let link = |chain: &[usize], at: Option<usize>| Some(*chain.get(at?)? as u32);
        for (k, row) in order.used.iter().enumerate() {
            self.rows[*row].before = link(&order.used, k.checked_sub(1));
            self.rows[*row].after = link(&order.used, Some(k + 1));
        }
        for (k, row) in order.free.iter().enumerate() {
            self.rows[*row].after = link(&order.free, Some(k + 1));
        }
        self.first = link(&order.used, Some(0));
        self.last = link(&order.used, order.used.len().checked_sub(1));
        self.free = link(&order.free, Some(0));
    }

    /// The row that a key means, where both first questions are answered "yes".
    pub fn find(&self, key: Key) -> Option<usize> {
        let order = self.order().filter(|_| self.sized())?;
        order
            .used
            .into_iter()
            .find(|row| self.rows[*row].key == key)
    }

    /// A row's cells.
    pub fn cells_of(&self, row: usize) -> &[u32; CELLS] {
        let cells = &self.cells[CELLS * row..][..CELLS];
        cells.try_into().expect("as many")
    }

    /// What the judging asks of a row.
    pub fn held(&self, row: usize) -> Held {
        Held {
            site: self.rows[row].site.map(|site| site.alt_m),
            ids: self.rows[row].ids,
        }
    }

    /// A row and its cells become as fresh.
    fn unmake(&mut self, row: usize) {
        self.rows[row] = Row::UNMADE;
        self.cells[CELLS * row..][..CELLS].fill(EMPTY);
    }

    /// A row is freed and heads the free chain; its key.
    fn release(&mut self, order: &mut Order, at: usize) -> Key {
        let row = order.used.remove(at);
        let key = self.rows[row].key;
        self.unmake(row);
        order.free.insert(0, row);
        key
    }

    /// A claim's change of a row.
    fn claimed(&mut self, at: usize, site: Option<Claim>) {
        let row = &mut self.rows[at];
        match (&mut row.site, site) {
            (None, None) => {}
            (Some(held), Some(new)) if ticks::same_place(held.at, new.at) => {
                held.alt_m = new.alt_m.or(held.alt_m);
            }
            (held, new) => {
                *held = new;
                row.ids = [None; 2];
                row.generation = row.generation.wrapping_add(1);
                if let Some(run) = &mut row.run {
                    run.moved = true;
                }
                self.cells[CELLS * at..][..CELLS].fill(EMPTY);
            }
        }
    }

    /// A position counted at a place of a half.
    fn counted(&mut self, row: usize, id: u64, place: usize, feet: Option<i32>, address: u32) {
        let half = (id % 2) as usize;
        let from = CELLS * row + HALF * half;
        if self.rows[row].ids[half] != Some(id) {
            self.rows[row].ids[half] = Some(id);
            self.cells[from..][..HALF].fill(EMPTY);
        }
        let word = &mut self.cells[from + place];
        let (count, low, bits) = (*word % 256, *word / 256 % 256, *word / 65_536);
        let bucket = feet.map_or(255, |feet| (feet.max(0) / 500).min(254) as u32);
        let bit = (u64::from(address) * 0x9E37_79B1 % (1 << 32)) >> 28;
        *word = model::packed((count + 1).min(255), low.min(bucket), bits | 1 << bit);
    }

    /// A judgment joins a row's run, or begins one.
    fn judged(&mut self, row: usize, number: Number) {
        let kept = self.rows[row].run.filter(|run| !run.moved);
        let mut run = kept.unwrap_or_default();
        if number > 1 {
            run.last = 2;
            run.wrongs = run.wrongs.saturating_add(1);
            run.others = 0;
            if run.wrongs >= 3 || run.off_km.is_some() {
                run.off_km = Some(number / 4);
            }
        } else {
            run.last = number as u8;
            run.others = run.others.saturating_add(1);
            run.wrongs = 0;
            if run.others >= 3 {
                run.off_km = None;
            }
        }
        self.rows[row].run = Some(run);
    }

    /// Answers a call. `known` is the place of the position or the judgment's number, where the
    /// caller has it already.
    pub fn answer(&mut self, call: &Call, known: Option<u32>) -> Answer {
        self.asked(call, known).unwrap_or_else(Answer::No)
    }

    /// The questions in their order, then the change.
    fn asked(&mut self, call: &Call, known: Option<u32>) -> Result<Answer, u8> {
        if !self.sized() {
            return Err(1);
        }
        if *call == Call::Fresh {
            *self = Self::fresh(self.rows.len());
            return Ok(Answer::Done);
        }
        let mut order = self.order().ok_or(2)?;
        let find = |key: &Key| {
            order
                .used
                .iter()
                .position(|row| self.rows[*row].key == *key)
        };
        let answer = match call {
            Call::Fresh => Answer::Done,
            Call::Claim(key, site) => {
                if site.is_some_and(|site| !in_range(site.at)) {
                    return Err(4);
                }
                let (row, pushed) = match find(key) {
                    Some(at) => (order.used.remove(at), None),
                    None => {
                        let full = order.free.is_empty();
                        let pushed = full.then(|| self.release(&mut order, 0));
                        let row = order.free.remove(0);
                        self.unmake(row);
                        self.rows[row].key = *key;
                        (row, pushed)
                    }
                };
                order.used.push(row);
                self.claimed(row, *site);
                Answer::Claimed(self.rows[row].generation, pushed)
            }
            Call::Position {
                key,
                at,
                feet,
                address,
                at_ms,
            } => {
                let found = find(key).ok_or(3)?;
                let row = order.used[found];
                if !in_range(*at) {
                    return Err(4);
                }
                let site = self.rows[row].site.ok_or(5)?;
                let id = at_ms / EPOCH_MS;
                if self.rows[row].ids[(id % 2) as usize].is_some_and(|held| id < held) {
                    return Err(6);
                }
                order.used.remove(found);
                order.used.push(row);
                let place = known.unwrap_or_else(|| u32::from(ticks::place(site.at, *at)));
                self.counted(row, id, place as usize, *feet, *address);
                Answer::Done
            }
            Call::Judging {
                key,
                now_ms,
                aircraft,
            } => {
                let row = order.used[find(key).ok_or(3)?];
                if too_soon(self.rows[row].judged_ms, *now_ms) {
                    return Err(9);
                }
                let number = known.unwrap_or_else(|| {
                    model::judge(self.cells_of(row), &self.held(row), *now_ms, *aircraft).number
                });
                self.judged(row, number);
                self.rows[row].judged_ms = Some(*now_ms);
                Answer::Judged(number)
            }
            Call::Check(key) => {
                let row = order.used[find(key).ok_or(3)?];
                let run = self.rows[row].run.ok_or(7)?;
                Answer::Checked(match (run.off_km, run.last) {
                    (Some(off), _) => State::Wrong(off),
                    (None, 1) => State::Fits,
                    (None, _) => State::Unjudged,
                })
            }
            Call::TakeOut(key) => {
                let at = find(key).ok_or(3)?;
                Answer::Freed(self.release(&mut order, at))
            }
            Call::Drop => {
                order.used.first().ok_or(3)?;
                Answer::Freed(self.release(&mut order, 0))
            }
        };
        self.relink(&order);
        Ok(answer)
    }

    /// Answers a tick, which only reads: questions 1 and 2, then the plain model's tick over who
    /// stands in each row.
    pub fn tick(&self, tick: &Tick) -> Ticked {
        if !self.sized() {
            return Err(1);
        }
        let mut rows = vec![None; self.rows.len()];
        for row in self.order().ok_or(2)?.used {
            rows[row] = Some(self.rows[row].key);
        }
        let mut list = tick.list([0; 32]);
        let bytes = list.as_flattened_mut();
        let turned = turns::plain(&rows, tick.next, tick.k, bytes);
        let (count, next) = turned.map_err(|number| number as u8)?;
        list.truncate(count as usize);
        Ok((list, next as u32))
    }

    /// The digest of the whole watch.
    pub fn digest(&self) -> u64 {
        let mut h: u64 = 14_695_981_039_346_656_037;
        let mut put = |words: &[u64]| {
            for word in words {
                h = (h ^ word).wrapping_mul(1_099_511_628_211);
            }
        };
        let link = |link: Link| link.map_or(u64::MAX, u64::from);
        put(&[self.rows.len() as u64]);
        put(&[self.first, self.last, self.free].map(link));
        for row in &self.rows {
            for part in row.key.chunks(8) {
                put(&[u64::from_le_bytes(part.try_into().expect("eight bytes"))]);
            }
            put(&row.site.map_or([0; 5], |site| {
                let alt = site.alt_m.map_or([0; 2], |alt| [1, u64::from(alt as u32)]);
                [1, site.at.0.to_bits(), site.at.1.to_bits(), alt[0], alt[1]]
            }));
            put(&[u64::from(row.generation)]);
            for id in row.ids {
                put(&id.map_or([0; 2], |id| [1, id]));
            }
            put(&row.run.map_or([0; 6], |run| {
                let off = u64::from(run.off_km.unwrap_or(0));
                let [last, wrongs, others] = [run.last, run.wrongs, run.others].map(u64::from);
                [1, last, wrongs, others, off, u64::from(run.moved)]
            }));
            put(&[row.before, row.after].map(link));
            put(&row.judged_ms.map_or([0; 2], |ms| [1, ms]));
        }
        for word in &self.cells {
            put(&[u64::from(*word)]);
        }
        h
    }
}

#[cfg(test)]
mod tests {
    use super::*;

    /// A key of one byte.
    fn key(last: u8) -> Key {
        let mut key = [0; 32];
        key[31] = last;
        key
    }

    /// P6: three Wrongs hold the distance, three others let it go, none in between does.
    #[test]
    fn runs_are_the_documents() {
        let held = |run: &str| {
            let mut watch = Watch::fresh(1);
            for (k, judged) in run.bytes().enumerate() {
                let off = 4 * 5 * (k as u32 + 1) + 1;
                watch.judged(0, if judged == b'W' { off } else { 0 });
            }
            watch.rows[0].run.and_then(|run| run.off_km)
        };
        assert_eq!(held("WWOWW"), None);
        assert_eq!(held("WWWOOW"), Some(30));
        assert_eq!(held("WWWOOOWW"), None);
        assert_eq!(held("WWWOOWOO"), Some(30));
    }

    /// Each part of question 2, spoiled alone, is answered "no".
    #[test]
    fn a_spoiled_watch_has_no_order() {
        let mut good = Watch::fresh(4);
        for k in 1..=3 {
            good.answer(&Call::Claim(key(k), None), None);
        }
        assert!(good.order().is_some());
        let spoils: [fn(&mut Watch); 11] = [
            |watch| watch.first = Some(1),
            |watch| watch.last = Some(1),
            |watch| watch.free = None,
            |watch| watch.free = Some(4),
            |watch| watch.rows[2].after = Some(0),
            |watch| watch.rows[2].after = Some(3),
            |watch| watch.rows[3].after = Some(3),
            |watch| watch.rows[0].before = Some(2),
            |watch| watch.rows[1].before = None,
            |watch| {
                watch.rows[3].site = Some(Claim {
                    at: (0.0, 180.5),
                    alt_m: None,
                });
            },
            |watch| {
                watch.rows[3].run = Some(Run {
                    off_km: Some(801),
                    ..Run::default()
                });
            },
        ];
        for (at, spoil) in spoils.iter().enumerate() {
            let mut watch = good.clone();
            spoil(&mut watch);
            assert!(watch.order().is_none(), "{at}");
            let before = watch.digest();
            assert_eq!(watch.answer(&Call::Drop, None), Answer::No(2));
            assert_eq!(watch.digest(), before);
        }
        // Nobody looks at a free row's back link.
        good.rows[3].before = Some(77);
        assert!(good.order().is_some());
    }

    /// Item 3: half an hour behind the last judging and not before; a refused one is not kept; a
    /// move keeps the clock, a row made anew does not.
    #[test]
    fn a_judging_too_soon_is_refused() {
        let mut watch = Watch::fresh(1);
        watch.answer(&Call::Claim(key(1), None), None);
        let mut at = |now_ms| {
            let judging = Call::Judging {
                key: key(1),
                now_ms,
                aircraft: 0,
            };
            watch.answer(&judging, None) == Answer::Judged(0)
        };
        assert!(at(5_000));
        assert!(!at(1_804_999) && !at(0));
        assert!(at(1_805_000));
        let site = Claim {
            at: (51.5, -0.25),
            alt_m: None,
        };
        watch.answer(&Call::Claim(key(1), Some(site)), None);
        assert_eq!(watch.rows[0].judged_ms, Some(1_805_000));
        assert!(too_soon(Some(u64::MAX - 1_799_999), u64::MAX));
        assert!(!too_soon(Some(u64::MAX - 1_800_000), u64::MAX));
        assert!(!too_soon(None, 0));
        watch.answer(&Call::TakeOut(key(1)), None);
        assert_eq!(watch.rows[0].judged_ms, None);
    }

    /// A row that is taken from the free chain is fresh, whatever lay there.
    #[test]
    fn junk_in_a_free_row_is_gone() {
        let mut watch = Watch::fresh(2);
        watch.rows[0].generation = 9;
        watch.rows[0].ids = [Some(4), None];
        watch.cells[5] = 7;
        watch.answer(&Call::Claim(key(1), None), None);
        let mut want = Watch::fresh(2);
        want.answer(&Call::Claim(key(1), None), None);
        assert_eq!(watch, want);
    }
}
