//! The seven calls over a watch and the turn keeper, at any size up to 4,096 receivers.

use std::iter::successors;

use crate::cells::{self, Cell, ROW_CELLS};
use crate::row::{NONE, ROW_WORDS, Row, key_of, linked, words_of};
use crate::{Claimed, Evidence, Judgment, Key, Position, Refusal, Site, State, Turned, raw};

/// The most receivers that a watch has room for.
pub const MOST_ROWS: usize = 4_096;

/// A watch over memory that the caller owns. Nothing is asked of it: what is no watch in order is
/// refused, and a refusal changes nothing.
///
/// ```
/// use siting::{Lent, NONE, ROW_CELLS, ROW_WORDS, Refusal};
///
/// // Memory of the caller's own, for two receivers: an array, a mapped file, a page.
/// let mut rows = [0; 2 * ROW_WORDS];
/// let mut cells = vec![0; 2 * ROW_CELLS];
/// let mut ends = [NONE; 3];
/// let mut watch = Lent::from_parts(&mut rows, &mut cells, &mut ends);
/// assert_eq!(watch.check(&[1; 32]), Err(Refusal::NotInOrder));
/// watch.fresh()?;
/// assert_eq!(watch.check(&[1; 32]), Err(Refusal::NotHeld));
/// assert_eq!(ends, [NONE, NONE, 0]);
/// # Ok::<(), Refusal>(())
/// ```
#[derive(Debug)]
pub struct Lent<'a> {
    rows: &'a mut [u64],
    cells: &'a mut [u32],
    ends: &'a mut [u32; 3],
}

/// Calls a C function on the lent memory and gives its nine numbers.
macro_rules! ask {
    ($name:ident, $lent:expr $(, $argument:expr)*) => {{
        let mut answer = [0; 9];
        // SAFETY: pointers and counts are those of exclusive borrows that outlive the call; the
        // function reads and writes within them and keeps nothing.
        unsafe {
            raw::$name(
                $lent.rows.as_mut_ptr(),
                $lent.rows.len(),
                $lent.cells.as_mut_ptr(),
                $lent.cells.len(),
                $lent.ends,
                &mut answer
                $(, $argument)*
            );
        }
        match answer[0] {
            0 => Err(Refusal::of(answer[1])),
            _ => Ok(answer),
        }
    }};
}

/// The key that an answer carries.
fn carried(answer: &[u64; 9]) -> Key {
    let [.., a, b, c, d] = *answer;
    key_of(&[a, b, c, d])
}

/// A tick of the turn keeper over a watch that is only read.
fn tick(
    (rows, cells, ends): (&[u64], &[u32], &[u32; 3]),
    next: u32,
    k: u32,
    list: &mut [Key],
) -> Result<Turned, Refusal> {
    let mut answer = [0; 9];
    let list = list.as_flattened_mut();
    // SAFETY: pointers and counts are those of borrows that outlive the call, exclusive where the
    // function writes; it reads and writes within them and keeps nothing.
    unsafe {
        raw::siting_turn(
            rows.as_ptr(),
            rows.len(),
            cells.as_ptr(),
            cells.len(),
            ends,
            &mut answer,
            next,
            k,
            list.as_mut_ptr(),
            list.len(),
        );
    }
    match answer[0] {
        0 => Err(Refusal::of(answer[1])),
        _ => Ok(Turned {
            count: answer[1] as usize,
            next: answer[2] as u32,
        }),
    }
}

impl<'a> Lent<'a> {
    /// Rows of [`ROW_WORDS`] numbers each, [`ROW_CELLS`] cells for each, and the row numbers of the
    /// first used, the last used and the first free row.
    pub fn from_parts(rows: &'a mut [u64], cells: &'a mut [u32], ends: &'a mut [u32; 3]) -> Self {
        Self { rows, cells, ends }
    }

    /// Every row free and as new, whatever was there.
    pub fn fresh(&mut self) -> Result<(), Refusal> {
        ask!(siting_fresh, self).map(|_| ())
    }

    /// The receiver claims a site, or none. One that is not held yet gets a row; with all rows held
    /// the least recently used is pushed out for it. A claim more than 1 km from the last is a
    /// move: what was heard is forgotten and the generation counts on.
    ///
    /// ```
    /// # use siting::{Site, Watch};
    /// let mut watch = Watch::new(1)?;
    /// let site = Site { lat: 51.4775, lon: -0.4614, alt_m: None };
    /// assert_eq!(watch.claim(&[1; 32], Some(site))?.generation, 1);
    /// assert_eq!(watch.claim(&[1; 32], None)?.generation, 2);
    /// assert_eq!(watch.claim(&[2; 32], Some(site))?.pushed_out, Some([1; 32]));
    /// # Ok::<(), siting::Refusal>(())
    /// ```
    pub fn claim(&mut self, of: &Key, site: Option<Site>) -> Result<Claimed, Refusal> {
        let (lat, lon) = site.map_or((0.0, 0.0), |site| (site.lat, site.lon));
        let alt = site.and_then(|site| site.alt_m);
        let answer = ask!(
            siting_claim,
            self,
            &words_of(of),
            u8::from(site.is_some()),
            lat,
            lon,
            u8::from(alt.is_some()),
            alt.unwrap_or(0)
        )?;
        Ok(Claimed {
            generation: answer[1] as u32,
            pushed_out: (answer[4] == 1).then(|| carried(&answer)),
        })
    }

    /// The receiver has heard an aircraft: the position is counted in its cells.
    pub fn position(&mut self, of: &Key, heard: &Position) -> Result<(), Refusal> {
        ask!(
            siting_position,
            self,
            &words_of(of),
            heard.lat,
            heard.lon,
            u8::from(heard.feet.is_some()),
            heard.feet.unwrap_or(0),
            heard.address,
            heard.at_ms
        )
        .map(|_| ())
    }

    /// The receiver's site is judged by what it heard, at this time and with so many aircraft; not
    /// before half an hour has passed since it was last judged.
    ///
    /// ```
    /// # use siting::{Evidence, Judgment, Position, Refusal, Site, Watch};
    /// let mut watch = Watch::new(1)?;
    /// let site = Site { lat: 51.4775, lon: -0.4614, alt_m: None };
    /// watch.claim(&[1; 32], Some(site))?;
    /// // All that is heard lies some 111 km to the north.
    /// let heard = Position { lat: 52.5, lon: -0.4, feet: None, address: 1, at_ms: 0 };
    /// for _ in 0..60 {
    ///     watch.position(&[1; 32], &heard)?;
    /// }
    /// let wrong = Judgment::Wrong { off_km: 125, by: Evidence::NothingNear };
    /// assert_eq!(watch.judging(&[1; 32], 0, 15)?, wrong);
    /// // Half an hour must pass before the next.
    /// assert_eq!(watch.judging(&[1; 32], 1_799_999, 15), Err(Refusal::TooSoon));
    /// assert_eq!(watch.judging(&[1; 32], 1_800_000, 14)?, Judgment::Unjudged);
    /// # Ok::<(), siting::Refusal>(())
    /// ```
    pub fn judging(&mut self, of: &Key, now_ms: u64, aircraft: u64) -> Result<Judgment, Refusal> {
        let answer = ask!(siting_judging, self, &words_of(of), now_ms, aircraft)?;
        Ok(match (answer[1], answer[3]) {
            (0, _) => Judgment::Unjudged,
            (1, _) => Judgment::Fits,
            (_, by) => Judgment::Wrong {
                off_km: answer[2] as u32,
                by: match by {
                    1 => Evidence::Horizon,
                    2 => Evidence::NearField,
                    _ => Evidence::NothingNear,
                },
            },
        })
    }

    /// What is held of the receiver's site: wrong after three such judgings in a row, until three
    /// others in a row.
    pub fn check(&mut self, of: &Key) -> Result<State, Refusal> {
        let answer = ask!(siting_check, self, &words_of(of))?;
        Ok(match answer[1] {
            0 => State::Unjudged,
            1 => State::Fits,
            _ => State::Wrong(answer[2] as u32),
        })
    }

    /// The receiver's row is freed; the answer is its key.
    pub fn take_out(&mut self, of: &Key) -> Result<Key, Refusal> {
        ask!(siting_take_out, self, &words_of(of)).map(|answer| carried(&answer))
    }

    /// The least recently used row is freed; the answer is its key.
    pub fn drop_oldest(&mut self) -> Result<Key, Refusal> {
        ask!(siting_drop_oldest, self).map(|answer| carried(&answer))
    }

    /// A tick of the half-hour round, for who can spare only `k` judgings at each: it names the `k`
    /// rows from number `next` on, in ascending number, going round to 0, and writes the keys of
    /// the used ones to the start of the list, whose rest stays. The first tick is handed any
    /// number (one that is no row's counts as 0), each other one [`Turned::next`] of the one before:
    /// so each row is named within `C / k` ticks, one more if that leaves a remainder, whatever is
    /// claimed or taken out meanwhile. [`Refusal::Turn`] where `k` is not from 1 to the rows' number
    /// or the list is shorter than `k`; then nothing is written.
    ///
    /// ```
    /// # use siting::{Refusal, Turned, Watch};
    /// let mut watch = Watch::new(3)?;
    /// watch.claim(&[5; 32], None)?; // row 0
    /// watch.claim(&[6; 32], None)?; // row 1
    /// let mut list = [[0; 32]; 2];
    /// let first = watch.lent().turn(0, 2, &mut list)?;
    /// assert_eq!((first, list), (Turned { count: 2, next: 2 }, [[5; 32], [6; 32]]));
    /// // Row 2 is free, and after it comes row 0.
    /// let second = watch.lent().turn(first.next, 2, &mut list)?;
    /// assert_eq!((second, list[0]), (Turned { count: 1, next: 1 }, [5; 32]));
    /// assert_eq!(watch.lent().turn(0, 3, &mut list), Err(Refusal::Turn));
    /// # Ok::<(), Refusal>(())
    /// ```
    pub fn turn(&self, next: u32, k: u32, list: &mut [Key]) -> Result<Turned, Refusal> {
        tick((self.rows, self.cells, self.ends), next, k, list)
    }
}

/// A watch with its memory, which is all that it is: two that are equal answer alike for ever.
///
/// ```
/// use siting::{Position, Refusal, Site, State, Watch};
///
/// let mut watch = Watch::new(4)?;
/// let receiver = [1; 32];
/// let site = Site { lat: 51.4775, lon: -0.4614, alt_m: Some(40) };
/// assert_eq!(watch.claim(&receiver, Some(site))?.generation, 1);
/// let heard = Position { lat: 51.6, lon: -0.3, feet: Some(7_400), address: 4_221_747, at_ms: 0 };
/// watch.position(&receiver, &heard)?;
/// assert_eq!(watch.check(&receiver), Err(Refusal::NeverJudged));
/// watch.judging(&receiver, 0, 15)?;
/// assert_eq!(watch.check(&receiver)?, State::Unjudged);
/// # Ok::<(), Refusal>(())
/// ```
#[derive(Clone, Debug, PartialEq, Eq)]
pub struct Watch {
    /// The rows, [`ROW_WORDS`] numbers each; [`Row::all`] names them.
    pub rows: Vec<u64>,
    /// The cells, [`ROW_CELLS`] for each row.
    pub cells: Vec<u32>,
    /// The first used, the last used and the first free row, [`NONE`] for none.
    pub ends: [u32; 3],
}

impl Watch {
    /// A fresh watch with room for so many receivers, 1 to [`MOST_ROWS`]; else
    /// [`Refusal::Sizes`]. A row takes 13,576 bytes, so 4,096 take 55.5 MB.
    pub fn new(rows: usize) -> Result<Self, Refusal> {
        if rows > MOST_ROWS {
            return Err(Refusal::Sizes);
        }
        let mut watch = Self {
            rows: vec![0; ROW_WORDS * rows],
            cells: vec![0; ROW_CELLS * rows],
            ends: [NONE; 3],
        };
        watch.lent().fresh()?;
        Ok(watch)
    }

    /// The calls over this memory.
    pub fn lent(&mut self) -> Lent<'_> {
        Lent::from_parts(&mut self.rows, &mut self.cells, &mut self.ends)
    }

    /// [`Lent::fresh`].
    pub fn fresh(&mut self) -> Result<(), Refusal> {
        self.lent().fresh()
    }

    /// [`Lent::claim`].
    pub fn claim(&mut self, of: &Key, site: Option<Site>) -> Result<Claimed, Refusal> {
        self.lent().claim(of, site)
    }

    /// [`Lent::position`].
    pub fn position(&mut self, of: &Key, heard: &Position) -> Result<(), Refusal> {
        self.lent().position(of, heard)
    }

    /// [`Lent::judging`].
    pub fn judging(&mut self, of: &Key, now_ms: u64, aircraft: u64) -> Result<Judgment, Refusal> {
        self.lent().judging(of, now_ms, aircraft)
    }

    /// [`Lent::check`].
    pub fn check(&mut self, of: &Key) -> Result<State, Refusal> {
        self.lent().check(of)
    }

    /// [`Lent::take_out`].
    pub fn take_out(&mut self, of: &Key) -> Result<Key, Refusal> {
        self.lent().take_out(of)
    }

    /// [`Lent::drop_oldest`].
    pub fn drop_oldest(&mut self) -> Result<Key, Refusal> {
        self.lent().drop_oldest()
    }

    /// [`Lent::turn`] with a list of its own: whose turn it is, and the next row number.
    ///
    /// ```
    /// # use siting::Watch;
    /// let mut watch = Watch::new(100)?;
    /// for receiver in 0..70 {
    ///     watch.claim(&[receiver; 32], None)?;
    /// }
    /// // A round of 100 rows, 30 a tick: three ticks, and one more for the remainder.
    /// let (mut next, mut judged) = (0, 0);
    /// for _ in 0..100_u32.div_ceil(30) {
    ///     let (turn, after) = watch.turn(next, 30)?;
    ///     judged += turn.len(); // here each of them is judged
    ///     next = after;
    /// }
    /// // The last tick went round to row 0: twenty rows had their turn twice.
    /// assert_eq!((judged, next), (70 + 20, 20));
    /// # Ok::<(), siting::Refusal>(())
    /// ```
    pub fn turn(&self, next: u32, k: u32) -> Result<(Vec<Key>, u32), Refusal> {
        let mut list = vec![[0; 32]; (k as usize).min(self.rows.len() / ROW_WORDS)];
        let turned = tick((&self.rows, &self.cells, &self.ends), next, k, &mut list)?;
        list.truncate(turned.count);
        Ok((list, turned.next))
    }

    /// The receivers that are held, least recently used first: their rows as they lie in memory.
    /// Of rows that are not in order only as many are given as there are.
    ///
    /// ```
    /// # use siting::Watch;
    /// let mut watch = Watch::new(3)?;
    /// watch.claim(&[5; 32], None)?;
    /// watch.claim(&[6; 32], None)?;
    /// let keys: Vec<_> = watch.receivers().map(|row| row.receiver()).collect();
    /// assert_eq!(keys, [[5; 32], [6; 32]]);
    /// # Ok::<(), siting::Refusal>(())
    /// ```
    pub fn receivers(&self) -> impl Iterator<Item = &Row> {
        self.used().map(|(_, row)| row)
    }

    /// The used chain: numbers and rows.
    fn used(&self) -> impl Iterator<Item = (usize, &Row)> {
        let rows = Row::all(&self.rows);
        let at = move |link| linked(link).and_then(|at| Some((at, rows.get(at)?)));
        successors(at(u64::from(self.ends[0])), move |(_, row)| at(row.after)).take(rows.len())
    }

    /// What a judging of the receiver at this time looks at: 1,600 grid cells, then 72 far bins,
    /// both halves joined. None where it is not held.
    pub fn heard(&self, of: &Key, now_ms: u64) -> Option<Vec<Cell>> {
        let key = words_of(of);
        let (at, row) = self.used().find(|(_, row)| row.key == key)?;
        let words = self.cells.get(ROW_CELLS * at..)?.get(..ROW_CELLS)?;
        Some(cells::judged(row, words, now_ms))
    }
}

#[cfg(test)]
mod tests {
    use super::*;

    const SITE: Site = Site {
        lat: 51.4775,
        lon: -0.4614,
        alt_m: None,
    };

    /// A position heard at this time.
    fn at(at_ms: u64) -> Position {
        Position {
            lat: 51.6,
            lon: -0.3,
            feet: Some(499),
            address: 2,
            at_ms,
        }
    }

    fn watch(rows: usize) -> Watch {
        Watch::new(rows).expect("1 to 4,096 rows")
    }

    /// P9 of the sheet: C = 2, claim a, claim b, position a, claim c pushes out b.
    #[test]
    fn the_least_recently_used_is_pushed_out() {
        let mut watch = watch(2);
        let (a, b, c) = ([1; 32], [2; 32], [3; 32]);
        assert!(watch.claim(&a, Some(SITE)).is_ok());
        assert!(watch.claim(&b, Some(SITE)).is_ok());
        assert_eq!(watch.position(&a, &at(0)), Ok(()));
        let claimed = watch.claim(&c, None).expect("accepted");
        assert_eq!(claimed.pushed_out, Some(b));
        assert_eq!(watch.drop_oldest(), Ok(a));
        assert_eq!(watch.take_out(&c), Ok(c));
        assert_eq!(watch.drop_oldest(), Err(Refusal::NotHeld));
    }

    /// P7 of the sheet, and that a refusal changes nothing.
    #[test]
    fn an_older_half_is_refused_and_nothing_changes() {
        let mut watch = watch(1);
        let a = [7; 32];
        assert!(watch.claim(&a, Some(SITE)).is_ok());
        assert_eq!(watch.position(&a, &at(0)), Ok(()));
        assert_eq!(watch.position(&a, &at(86_400_000)), Ok(()));
        let before = watch.clone();
        assert_eq!(watch.position(&a, &at(43_199_999)), Err(Refusal::TooOld));
        assert_eq!(watch, before);
    }

    /// A tag that is neither 0 nor 1, and a number behind a tag of 0, are refused with 2, of a free
    /// row too; a length that is no whole row with 1.
    #[test]
    fn junk_is_refused() {
        let mut watch = watch(2);
        // A site's tag; and latitude, altitude, ids, the last judging and the distance of none.
        for (at, junk) in [(4, 2), (5, 1), (8, 7), (11, 1), (13, 1), (15, 1), (19, 5)] {
            let mut spoiled = watch.clone();
            spoiled.rows[at] = junk;
            let before = spoiled.clone();
            assert_eq!(spoiled.check(&[0; 32]), Err(Refusal::NotInOrder));
            assert_eq!(spoiled, before);
        }
        watch.rows.pop();
        assert_eq!(watch.fresh(), Err(Refusal::Sizes));
    }

    #[test]
    fn a_watch_has_1_to_4096_rows() {
        assert_eq!(Watch::new(0), Err(Refusal::Sizes));
        assert_eq!(Watch::new(usize::MAX), Err(Refusal::Sizes));
        assert_eq!(watch(MOST_ROWS).ends, [NONE, NONE, 0]);
    }

    /// What a tick is refused with, in the questions' order, and that a refusal writes nothing.
    #[test]
    fn a_tick_is_refused_by_1_2_and_8() {
        let mut watch = watch(3);
        assert!(watch.claim(&[4; 32], None).is_ok());
        for (k, room) in [(0, 3), (4, 4), (2, 1), (u32::MAX, 8)] {
            let mut list = vec![[9; 32]; room];
            assert_eq!(watch.lent().turn(0, k, &mut list), Err(Refusal::Turn));
            assert_eq!(list, vec![[9; 32]; room]);
        }
        assert_eq!(watch.turn(u32::MAX, 3), Ok((vec![[4; 32]], 0)));
        watch.rows[4] = 2;
        assert_eq!(watch.turn(0, 0), Err(Refusal::NotInOrder));
        watch.cells.pop();
        assert_eq!(watch.turn(0, 0), Err(Refusal::Sizes));
    }

    /// Both halves of now and before are joined, older ones are not; a chain that does not end
    /// gives as many rows as there are.
    #[test]
    fn what_was_heard_is_shown() {
        let mut watch = watch(2);
        let a = [7; 32];
        assert!(watch.claim(&a, Some(SITE)).is_ok());
        for at_ms in [0, 43_199_999, 43_200_000] {
            assert_eq!(watch.position(&a, &at(at_ms)), Ok(()));
        }
        let counts = |now_ms| {
            let cells = watch.heard(&a, now_ms).expect("held");
            assert_eq!(cells.len(), 1_672);
            cells.iter().map(|cell| u32::from(cell.count)).sum::<u32>()
        };
        assert_eq!(
            [0, 43_200_000, 86_400_000, 129_600_000].map(counts),
            [2, 3, 1, 0]
        );
        let place = crate::siting_place(SITE.lat, SITE.lon, at(0).lat, at(0).lon);
        let cells = watch.heard(&a, 43_200_000).expect("held");
        assert_eq!(cells[usize::from(place)].lowest_feet(), Some(0));
        assert_eq!(watch.heard(&[8; 32], 0), None);
        watch.rows[22] = 0;
        assert_eq!(watch.receivers().count(), 2);
    }
}
