//! The original's `Bounded`, `Heard` and `Verdicts`, joined as the document joins them. A child of
//! `reach.rs`, and so within reach of their private parts.

use std::collections::{BTreeMap, BTreeSet};

use tally_wire::PublicKey;

use super::super::*;
use super::{epochs, judgment, number};
use crate::bounded::{Bounded, PAGE};
use crate::{CELLS, Claim, Degrees, HALF, Key, Number, Relay, Run, Seen, State};

/// How far apart the slots of a page lie, in bytes: seen on a map of two.
fn stride() -> usize {
    let mut two = Bounded::new(2);
    for k in 0..2 {
        two.insert_active(PublicKey([k; 32]), Heard::default());
    }
    let at = |k| std::ptr::from_ref(two.get(&PublicKey([k; 32])).expect("held")).addr();
    at(1) - at(0)
}

/// The original's site of a claim.
fn claimed(site: Claim) -> Site {
    Site {
        lat: site.at.0,
        lon: site.at.1,
        alt_m: site.alt_m,
    }
}

/// The run that a verdict says, of a row of this generation.
fn run(verdict: &Verdict, generation: u32) -> Run {
    let last = match verdict.last {
        Judgment::Unjudged => 0,
        Judgment::Fits => 1,
        Judgment::Wrong { .. } => 2,
    };
    Run {
        last,
        wrongs: verdict.wrong_run,
        others: verdict.other_run,
        off_km: verdict.wrong_by,
        moved: verdict.generation != generation,
    }
}

impl Relay {
    /// Holds at most so many receivers.
    pub fn new(rows: usize) -> Self {
        Self {
            rows: Bounded::new(rows),
            runs: BTreeMap::new(),
            rounds: Verdicts::default(),
            freed: BTreeSet::new(),
            // Past one page an address does not tell the slot.
            slots: (None, (rows <= PAGE).then(stride)),
        }
    }

    /// Holds at most so many receivers, to be taken over from a table in any order: slots are not
    /// told.
    pub fn lent(rows: usize) -> Self {
        Self {
            slots: (None, None),
            ..Self::new(rows)
        }
    }

    /// A row was freed: its key's run is forgotten with it.
    fn forget(&mut self, key: Key) {
        self.runs.remove(&key);
        self.freed.insert(key);
    }

    /// A claim: `set_site`, written and marked by `insert_active`. Its generation, and the key
    /// that was pushed out.
    pub fn claim(&mut self, key: Key, site: Option<Claim>) -> (u32, Option<Key>) {
        let key = PublicKey(key);
        let mut heard = self.rows.get(&key).cloned().unwrap_or_default();
        heard.set_site(site.map(claimed));
        let generation = heard.generation();
        let pushed = self.rows.insert_active(key, heard);
        if let Some(pushed) = pushed {
            self.forget(pushed.0);
        }
        if self.slots.0.is_none() {
            // The first key written takes slot 0.
            self.slots.0 = self.rows.get(&key).map(|v| std::ptr::from_ref(v).addr());
        }
        (generation, pushed.map(|key| key.0))
    }

    /// A position: `heard`, then `touch`. What the original passes over in silence is read off
    /// what it holds: no row 3, no site 5, an older id than the half's 6.
    pub fn position(
        &mut self,
        key: Key,
        at: Degrees,
        feet: Option<i32>,
        address: u32,
        at_ms: u64,
    ) -> Result<(), u8> {
        let key = PublicKey(key);
        let heard = self.rows.get_mut(&key).ok_or(3)?;
        heard.site().ok_or(5)?;
        heard.heard(at.0, at.1, feet, address, at_ms);
        let id = at_ms / EPOCH_MS;
        let held = heard.epochs[usize::from(id % 2 == 1)].as_ref();
        if held.is_none_or(|epoch| epoch.id != id) {
            return Err(6);
        }
        self.rows.touch(&key);
        Ok(())
    }

    /// Whether a key has a row.
    pub fn holds(&self, key: Key) -> bool {
        self.rows.get(&PublicKey(key)).is_some()
    }

    /// What `judge` says; None without a row. Changes nothing.
    pub fn judge(&self, key: Key, now_ms: u64, aircraft: u64) -> Option<Number> {
        let aircraft = usize::try_from(aircraft).unwrap_or(usize::MAX);
        let heard = self.rows.get(&PublicKey(key))?;
        Some(number(heard.judge(now_ms, aircraft)))
    }

    /// The key's own `Verdicts` are told a judgment of a row that is held.
    pub fn judged(&mut self, key: Key, number: Number) {
        if let Some(heard) = self.rows.get(&PublicKey(key)) {
            let named = vec![(PublicKey(key), heard.generation(), judgment(number))];
            self.runs.entry(key).or_default().judged(named);
        }
    }

    /// The `Verdicts` of all are told a round that names every row once, after each key's own. The
    /// first key of which they say otherwise, and whether that is one whose row was freed since.
    pub fn round(&mut self, judged: &[(Key, Number)]) -> Vec<(Key, bool)> {
        let named = judged.iter().filter_map(|(key, number)| {
            let key = PublicKey(*key);
            let generation = self.rows.get(&key)?.generation();
            Some((key, generation, judgment(*number)))
        });
        self.rounds.judged(named.collect());
        let keys: Vec<Key> = judged.iter().map(|(key, _)| *key).collect();
        let (same, other): (Vec<Key>, Vec<Key>) = keys.into_iter().partition(|key| {
            let own = self.runs.get(key).and_then(|own| own.held.get(&PublicKey(*key)));
            self.rounds.held.get(&PublicKey(*key)) == own
        });
        let freed = other.iter().map(|key| (*key, self.freed.contains(key))).collect();
        same.iter().for_each(|key| {
            self.freed.remove(key);
        });
        freed
    }

    /// What `check` says, or 3 without a row, 7 where it says nothing.
    pub fn check(&self, key: Key) -> Result<State, u8> {
        let key = PublicKey(key);
        self.rows.get(&key).ok_or(3)?;
        let check = self.runs.get(&key.0).and_then(|run| run.check(&key));
        let check = check.ok_or(7)?;
        Ok(match (check.state, check.off_km) {
            (CheckState::Unjudged, _) => State::Unjudged,
            (CheckState::Fits, _) => State::Fits,
            (CheckState::Wrong, off_km) => State::Wrong(off_km.unwrap_or(0)),
        })
    }

    /// `remove`; 3 without a row.
    pub fn take_out(&mut self, key: Key) -> Result<Key, u8> {
        self.rows.remove(&PublicKey(key)).ok_or(3)?;
        self.forget(key);
        Ok(key)
    }

    /// `pop_first`; 3 without a row.
    pub fn drop_oldest(&mut self) -> Result<Key, u8> {
        let (key, _) = self.rows.pop_first().ok_or(3)?;
        self.forget(key.0);
        Ok(key.0)
    }

    /// Every receiver held, the least recently used first.
    pub fn seen(&self) -> Vec<Seen> {
        let seen = self.rows.iter().map(|(key, heard)| {
            let runs = self.runs.get(&key.0);
            let verdict = runs.and_then(|run| run.held.get(key));
            let at = std::ptr::from_ref(heard).addr();
            let slots = self.slots.0.zip(self.slots.1);
            let number = slots.map(|(zero, apart)| ((at - zero) / apart) as u32);
            Seen {
                key: key.0,
                number,
                site: heard.site.map(|site| Claim {
                    at: (site.lat, site.lon),
                    alt_m: site.alt_m,
                }),
                generation: heard.generation,
                ids: [0, 1].map(|k: usize| heard.epochs[k].as_ref().map(|epoch| epoch.id)),
                run: verdict.map(|verdict| run(verdict, heard.generation)),
            }
        });
        seen.collect()
    }

    /// A receiver's cells, packed; empty where the original has none.
    pub fn cells(&self, key: Key) -> Box<[u32; CELLS]> {
        let mut cells = Box::new([65_280; CELLS]);
        let Some(heard) = self.rows.get(&PublicKey(key)) else {
            return cells;
        };
        let packed = |cell: &Cell| {
            u32::from(cell.count) + 256 * u32::from(cell.low) + 65_536 * u32::from(cell.aircraft)
        };
        for (half, epoch) in cells.chunks_mut(HALF).zip(&heard.epochs) {
            let Some(epoch) = epoch else { continue };
            let grid = epoch.grid.iter().flat_map(|grid| grid.iter());
            half.iter_mut().zip(grid).for_each(|(to, cell)| *to = packed(cell));
            let far = half[GRID_CELLS..].iter_mut().zip(&epoch.far);
            far.for_each(|(to, cell)| *to = packed(cell));
        }
        cells
    }

    /// Takes over a made-up row as the most recently used.
    pub fn put(&mut self, seen: &Seen, cells: &[u32; CELLS]) {
        let heard = Heard {
            site: seen.site.map(claimed),
            generation: seen.generation,
            epochs: epochs(seen.ids, cells),
        };
        let key = PublicKey(seen.key);
        self.rows.insert_active(key, heard);
        if let Some(run) = seen.run {
            let verdict = Verdict {
                generation: seen.generation.wrapping_sub(u32::from(run.moved)),
                last: judgment([0, 1, 21][usize::from(run.last)]),
                wrong_run: run.wrongs,
                other_run: run.others,
                wrong_by: run.off_km,
            };
            let held = BTreeMap::from([(key, verdict)]);
            self.runs.insert(seen.key, Verdicts { held });
        }
    }
}
