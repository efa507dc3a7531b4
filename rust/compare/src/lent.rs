//! Our seven calls and the turn keeper over rows lent as numbers, through the safe crate over the C
//! functions.

use oracle::{Claim, Run, State};
use siting::{Evidence, Judgment, NONE, Position, ROW_WORDS, Refusal, Site, words_of};

use crate::kept::Kept;
use crate::text::Table;
use crate::watch::{Answer, Call, Link, Row, Tick, Ticked, Watch};

/// A watch as the crate holds it.
pub struct Lent(pub Kept);

fn link(link: Link) -> u32 {
    link.unwrap_or(NONE)
}

fn unlink(word: u64) -> Link {
    Some(word as u32).filter(|link| *link != NONE)
}

/// A tag and the number behind it.
fn held(number: Option<u64>) -> (u64, u64) {
    number.map_or((0, 0), |number| (1, number))
}

/// A row as it is lent.
fn closed(row: &Row) -> siting::Row {
    let mut flat = siting::Row {
        key: words_of(&row.key),
        generation: u64::from(row.generation),
        before: u64::from(link(row.before)),
        after: u64::from(link(row.after)),
        ..siting::Row::default()
    };
    if let Some(site) = row.site {
        flat.has_site = 1;
        [flat.lat_bits, flat.lon_bits] = [site.at.0, site.at.1].map(f64::to_bits);
        (flat.has_alt, flat.alt_m) = held(site.alt_m.map(|alt| u64::from(alt as u32)));
    }
    (flat.has_even, flat.even_id) = held(row.ids[0]);
    (flat.has_odd, flat.odd_id) = held(row.ids[1]);
    if let Some(run) = row.run {
        flat.has_verdict = 1;
        [flat.last, flat.wrongs, flat.others] = [run.last, run.wrongs, run.others].map(u64::from);
        (flat.has_off, flat.off_km) = held(run.off_km.map(u64::from));
        flat.moved = u64::from(run.moved);
    }
    (flat.has_judged_ms, flat.judged_ms) = held(row.judged_ms);
    flat
}

/// The row that is lent so.
fn opened(flat: &siting::Row) -> Row {
    Row {
        key: flat.receiver(),
        site: flat.site().map(|site| Claim {
            at: (site.lat, site.lon),
            alt_m: site.alt_m,
        }),
        generation: flat.generation as u32,
        ids: flat.ids(),
        run: (flat.has_verdict == 1).then(|| Run {
            last: flat.last as u8,
            wrongs: flat.wrongs as u8,
            others: flat.others as u8,
            off_km: (flat.has_off == 1).then_some(flat.off_km as u32),
            moved: flat.moved == 1,
        }),
        judged_ms: flat.judged_ms(),
        before: unlink(flat.before),
        after: unlink(flat.after),
    }
}

impl Lent {
    pub fn of(watch: &Watch) -> Self {
        let rows = watch.rows.iter().map(closed);
        Self(Kept::new(siting::Watch {
            rows: rows.flat_map(|row| *row.words()).collect(),
            cells: watch.cells.clone(),
            ends: [watch.first, watch.last, watch.free].map(link),
        }))
    }

    fn watch(&self) -> Watch {
        let now = self.0.now();
        let [first, last, free] = now.ends.map(|end| unlink(u64::from(end)));
        Watch {
            rows: siting::Row::all(&now.rows).iter().map(opened).collect(),
            cells: now.cells.clone(),
            first,
            last,
            free,
        }
    }

    /// The first lent row whose words are not what it is closed as.
    fn junk(&self) -> Option<usize> {
        let mut rows = siting::Row::all(self.0.rows()).iter();
        rows.position(|row| closed(&opened(row)) != *row)
    }

    /// Makes a call; an error where it was refused and a byte has changed, or accepted over or
    /// with words that no row was closed as.
    pub fn called(&mut self, call: &Call) -> Result<Answer, String> {
        let before = self.junk().filter(|_| *call != Call::Fresh);
        let asked = self.ask(call);
        if let (Ok(_), Some(at)) = (&asked, before.or_else(|| self.junk())) {
            return Err(format!("{}: accepted with junk in row {at}", call.line()));
        }
        match asked {
            Ok(answer) if *call == Call::Fresh => {
                self.0.follow_all();
                Ok(answer)
            }
            Ok(answer) => {
                self.0.follow(call.key().into_iter().chain(answer.key()));
                Ok(answer)
            }
            Err(refusal) if self.0.unchanged() => Ok(Answer::No(refusal.number())),
            Err(refusal) => Err(format!("{}: {refusal} and a change", call.line())),
        }
    }

    /// Makes a tick with a list that is lent and, where that has room, with one of the watch's
    /// own; an error where the two differ, a byte of the watch has changed, or one of the list
    /// behind the keys given.
    fn ticked(&mut self, tick: &Tick) -> Result<Ticked, String> {
        const REST: [u8; 32] = [0xA5; 32];
        let Tick { next, k, room } = *tick;
        let mut list = tick.list(REST);
        let turned = self.0.lent().turn(next, k, &mut list);
        let rest = list.split_off(turned.map_or(0, |turned| turned.count));
        let asked = turned.map(|turned| (list, turned.next));
        if room >= k && self.0.now().turn(next, k) != asked {
            return Err(format!("{}: otherwise with a list of its own", tick.line()));
        }
        if rest.iter().any(|key| *key != REST) || !self.0.unchanged() {
            return Err(format!("{}: a change", tick.line()));
        }
        Ok(asked.map_err(Refusal::number))
    }

    fn ask(&mut self, call: &Call) -> Result<Answer, Refusal> {
        let mut lent = self.0.lent();
        Ok(match call {
            Call::Fresh => lent.fresh().map(|()| Answer::Done)?,
            Call::Claim(key, site) => {
                let site = site.map(|site| Site {
                    lat: site.at.0,
                    lon: site.at.1,
                    alt_m: site.alt_m,
                });
                let claimed = lent.claim(key, site)?;
                Answer::Claimed(claimed.generation, claimed.pushed_out)
            }
            Call::Position {
                key,
                at,
                feet,
                address,
                at_ms,
            } => {
                let heard = Position {
                    lat: at.0,
                    lon: at.1,
                    feet: *feet,
                    address: *address,
                    at_ms: *at_ms,
                };
                lent.position(key, &heard).map(|()| Answer::Done)?
            }
            Call::Judging {
                key,
                now_ms,
                aircraft,
            } => Answer::Judged(match lent.judging(key, *now_ms, *aircraft)? {
                Judgment::Unjudged => 0,
                Judgment::Fits => 1,
                Judgment::Wrong { off_km, by } => {
                    4 * off_km
                        + match by {
                            Evidence::Horizon => 1,
                            Evidence::NearField => 2,
                            Evidence::NothingNear => 3,
                        }
                }
            }),
            Call::Check(key) => Answer::Checked(match lent.check(key)? {
                siting::State::Unjudged => State::Unjudged,
                siting::State::Fits => State::Fits,
                siting::State::Wrong(off_km) => State::Wrong(off_km),
            }),
            Call::TakeOut(key) => Answer::Freed(lent.take_out(key)?),
            Call::Drop => Answer::Freed(lent.drop_oldest()?),
        })
    }
}

impl Table for Lent {
    fn fresh(rows: usize) -> Self {
        // No row, or too many, is for the calls to refuse.
        Self::of(&Watch::fresh(rows))
    }

    fn lent(rows: usize, cells: usize) -> Self {
        Self::of(&Watch::lent(rows, cells))
    }

    /// A refusal changes no byte.
    fn call(&mut self, call: &Call) -> Answer {
        self.called(call).unwrap_or_else(|wrong| panic!("{wrong}"))
    }

    /// A tick changes no byte.
    fn tick(&mut self, tick: &Tick) -> Ticked {
        self.ticked(tick).unwrap_or_else(|wrong| panic!("{wrong}"))
    }

    fn digest(&self) -> u64 {
        self.watch().digest()
    }

    fn row(&mut self, at: usize, row: Row) -> bool {
        self.0.set(|watch| {
            let words = watch.rows.chunks_exact_mut(ROW_WORDS).nth(at);
            words.is_some_and(|words| {
                words.copy_from_slice(closed(&row).words());
                true
            })
        })
    }

    fn cell(&mut self, at: usize, word: u32) -> bool {
        self.0.set(|watch| {
            watch.cells.get_mut(at).is_some_and(|cell| {
                *cell = word;
                true
            })
        })
    }

    fn ends(&mut self, ends: [Link; 3]) {
        self.0.set(|watch| watch.ends = ends.map(link));
    }
}
