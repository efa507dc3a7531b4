//! Made-up fields of cells, aimed at the branches of the judging, and rows that hold them.

use oracle::{CELLS, HALF, Held};

use crate::model::{EMPTY, EPOCH_MS, GRID, centre, group_in, packed};
use crate::rng::Rng;

/// The merged view that a row should have: 1,600 cells, then 72 bins.
pub type Field = Vec<u32>;

/// A way of making fields.
pub type Maker = fn(&mut Rng) -> Field;

/// The ways, with the names that are printed.
pub const WAYS: [(&str, Maker); 20] = [
    ("noise", noise),
    ("any words", any_words),
    ("bins all round, past the horizon", horizon_round),
    ("bins on one side, past the horizon", horizon_side),
    ("limits of the horizon", horizon_limits),
    ("nothing near", one_side),
    ("limits of nothing near", sixty),
    ("equally near places", equals),
    ("one place", one),
    ("two places", two),
    ("a cell and a bin before the others", cell_and_bin),
    ("few places", few),
    ("sectors around the site", ring),
    ("near on one side, far all round", inside),
    ("few cells, many bins", few_cells),
    ("a wedge from about 15 km on", wedge),
    ("a field on one side", half_plane),
    ("a blob close to the site", close_blob),
    ("a blob off the site", blob),
    ("exact ties of the mean", ties),
];

/// A row to judge.
pub struct Case {
    pub held: Held,
    pub cells: Box<[u32; CELLS]>,
    pub now_ms: u64,
    pub aircraft: u64,
}

/// Nothing heard.
fn nothing() -> Field {
    vec![EMPTY; HALF]
}

/// An altitude bucket: none, any, or a low one.
fn low(rng: &mut Rng) -> u32 {
    match rng.below(4) {
        0 | 1 => 255,
        2 => rng.below(256) as u32,
        _ => rng.below(20) as u32,
    }
}

/// Aircraft bits: one, a few, or any.
fn bits(rng: &mut Rng) -> u32 {
    match rng.below(4) {
        0 | 1 => 1 << rng.below(16),
        2 => (rng.next() & rng.next()) as u32 & 0xFFFF,
        _ => rng.next() as u32 & 0xFFFF,
    }
}

/// A cell with few positions and no altitude.
fn quiet(rng: &mut Rng) -> u32 {
    packed(rng.int(1, 4) as u32, 255, bits(rng))
}

/// A cell with any count and no altitude.
fn heard(rng: &mut Rng) -> u32 {
    let most = rng.pick(&[1, 5, 60, 255]);
    packed(rng.int(1, most) as u32, 255, bits(rng))
}

/// A cell with all aircraft bits.
fn busy(rng: &mut Rng) -> u32 {
    packed(rng.int(1, 9) as u32, 255, 0xFFFF)
}

/// The squared distance of a cell's centre from a point, half cells.
fn square(at: usize, from: (i64, i64)) -> i64 {
    let (e, n) = centre(at);
    (e - from.0).pow(2) + (n - from.1).pow(2)
}

/// The sector of a cell or a bin by its bearing from the site. Near enough to aim by; no verdict
/// rests on it.
fn sector(at: usize) -> usize {
    if at >= GRID {
        return (at - GRID) / 9;
    }
    let (e, n) = centre(at);
    let bearing = (e as f64).atan2(n as f64).to_degrees().rem_euclid(360.0);
    (bearing / 45.0) as usize % 8
}

/// Eight marks, the `n` from `first` on (going round) set.
fn side(first: usize, n: usize) -> [bool; 8] {
    let mut marks = [false; 8];
    for k in 0..n {
        marks[(first + k) % 8] = true;
    }
    marks
}

/// Up to `n` sectors in a row, from any one.
fn any_side(rng: &mut Rng, n: usize) -> [bool; 8] {
    let first = rng.below(8);
    side(first, 1 + rng.below(n))
}

/// Fills each place that `holds` accepts, `part` in 16 of them.
fn fill(
    rng: &mut Rng,
    field: &mut Field,
    part: usize,
    word: fn(&mut Rng) -> u32,
    holds: impl Fn(usize) -> bool,
) {
    for (at, cell) in field.iter_mut().enumerate() {
        if holds(at) && rng.below(16) < part {
            *cell = word(rng);
        }
    }
}

/// Some words anywhere, some of them with count 0 and junk beside it.
fn noise(rng: &mut Rng) -> Field {
    let mut field = nothing();
    for _ in 0..rng.below(120) {
        let at = rng.below(HALF);
        let count = rng.pick(&[0, 1, 2, 9, 255]);
        field[at] = packed(count, low(rng), bits(rng));
    }
    field
}

/// Any 32 bits, in few or in most places.
fn any_words(rng: &mut Rng) -> Field {
    let mut field = nothing();
    let part = rng.pick(&[1, 1, 4, 16]);
    fill(rng, &mut field, part, |rng| rng.next() as u32, |_| true);
    field
}

/// A bin's word with an altitude so low that the farther bins are past the horizon.
fn low_flight(rng: &mut Rng) -> u32 {
    packed(rng.int(1, 30) as u32, rng.below(25) as u32, bits(rng))
}

/// Bins past the horizon in all sectors, or with something near.
fn horizon_round(rng: &mut Rng) -> Field {
    let mut field = nothing();
    let part = rng.pick(&[2, 8, 14]);
    fill(rng, &mut field, part, low_flight, |at| at >= GRID);
    if rng.one_in(2) {
        fill(rng, &mut field, 1, heard, |at| at < GRID);
    }
    field
}

/// Bins past the horizon in few sectors.
fn horizon_side(rng: &mut Rng) -> Field {
    let (mut field, marks) = (nothing(), any_side(rng, 4));
    fill(rng, &mut field, 12, low_flight, |at| {
        at >= GRID && marks[sector(at)]
    });
    field
}

/// About three bins past the horizon, about three aircraft, about a twentieth of the positions.
fn horizon_limits(rng: &mut Rng) -> Field {
    let mut field = nothing();
    let past = rng.int(2, 5) as usize;
    let mut counted = 0;
    for k in 0..past {
        let count = rng.int(1, 12) as u32;
        counted += count;
        let kinds = if rng.one_in(2) { 3 } else { 16 };
        let bit = 1 << rng.below(kinds).min(k + 1);
        // Bands 3 to 8, flights at the ground: past for most altitudes of a site.
        field[GRID + 9 * rng.below(8) + 3 + rng.below(6)] = packed(count, 0, bit);
    }
    // The rest, without altitude, up to twenty times as many and one more or less.
    let mut rest = (20 * counted).saturating_add_signed(rng.int(-2, 2) as i32) - counted;
    while rest > 0 {
        let at = GRID + rng.below(72);
        if field[at] == EMPTY {
            let count = rest.min(rng.int(1, 255) as u32);
            field[at] = packed(count, 255, bits(rng));
            rest -= count;
        } else if rng.one_in(80) {
            break;
        }
    }
    field
}

/// Cells past about 60 km and bins, in few sectors, no altitude.
fn one_side(rng: &mut Rng) -> Field {
    let (mut field, marks) = (nothing(), any_side(rng, 4));
    let part = rng.pick(&[1, 3, 10]);
    fill(rng, &mut field, part, heard, |at| {
        marks[sector(at)] && (at >= GRID || square(at, (0, 0)) >= 576)
    });
    field
}

/// Positions about 60, the third nearest place at about 60 km.
fn sixty(rng: &mut Rng) -> Field {
    let (mut field, marks) = (nothing(), any_side(rng, 5));
    let places: Vec<usize> = (0..HALF)
        .filter(|at| marks[sector(*at)])
        .filter(|at| *at >= GRID || (480..680).contains(&square(*at, (0, 0))))
        .collect();
    let held = rng.int(1, 14) as usize;
    let mut left = rng.int(56, 66) as u32;
    for k in 0..held {
        let count = if k + 1 == held {
            left
        } else {
            rng.below(left as usize / 2 + 1) as u32
        };
        left -= count;
        field[rng.pick(&places)] = packed(count, 255, bits(rng));
    }
    // One or two places close by do not make it near; a third does.
    for _ in 0..rng.below(4) {
        let at = rng.below(GRID);
        if marks[sector(at)] && square(at, (0, 0)) < 576 {
            field[at] = packed(1, 255, 1);
        }
    }
    field
}

/// A place with few or many positions, no altitude.
fn heavy(rng: &mut Rng) -> u32 {
    packed(rng.pick(&[1, 2, 40, 90, 255]), 255, bits(rng))
}

/// About two equally near places behind one that is nearer, farther ones behind them, on one side:
/// which of the equals is left out of the typical distance decides it as often as not.
fn equals(rng: &mut Rng) -> Field {
    let (mut field, marks) = (nothing(), any_side(rng, 4));
    let bins = rng.one_in(2);
    // As far as this cell, or in this band; at least 60 km.
    let band = rng.below(6);
    let cell = rng.below(GRID);
    let far = square(cell, (0, 0)).max(576);
    let distance = |at: usize| {
        if at < GRID {
            square(at, (0, 0))
        } else {
            far + 1
        }
    };
    let is_equal = |at: usize| match (bins, at < GRID) {
        (false, true) => distance(at) == far,
        (true, false) => (at - GRID) % 9 == band,
        _ => false,
    };
    let is_farther = |at: usize| match (bins, at < GRID) {
        (false, _) => distance(at) > far,
        (true, true) => false,
        (true, false) => (at - GRID) % 9 > band,
    };
    let part = rng.pick(&[6, 12, 16]);
    fill(rng, &mut field, part, heavy, |at| {
        marks[sector(at)] && is_equal(at)
    });
    fill(rng, &mut field, 1, heavy, |at| {
        marks[sector(at)] && is_farther(at)
    });
    // The nearer one: a cell, for bins now and then a bin or none.
    let nearer = if bins && rng.one_in(2) {
        GRID + 9 * rng.below(8) + rng.below(band + 1)
    } else {
        rng.below(GRID)
    };
    if marks[sector(nearer)] && (bins || distance(nearer) < far) {
        field[nearer] = heavy(rng);
    }
    field
}

/// Any bin, or a cell of the grid's corners, some of them behind the first bins.
fn far_place(rng: &mut Rng) -> usize {
    let corners: Vec<usize> = (0..GRID)
        .filter(|at| (1_200..2_200).contains(&square(*at, (0, 0))))
        .collect();
    if rng.one_in(2) {
        rng.pick(&corners)
    } else {
        GRID + rng.below(72)
    }
}

/// One place with about 60 positions or more.
fn one(rng: &mut Rng) -> Field {
    let mut field = nothing();
    field[far_place(rng)] = packed(rng.pick(&[59, 60, 90, 255]), 255, bits(rng));
    field
}

/// Two places, the nearer of them anywhere.
fn two(rng: &mut Rng) -> Field {
    let mut field = nothing();
    field[far_place(rng)] = heavy(rng);
    let nearer = if rng.one_in(2) {
        rng.below(GRID)
    } else {
        far_place(rng)
    };
    field[nearer] = packed(rng.pick(&[19, 60, 255]), 255, bits(rng));
    field
}

/// A cell and a bin nearer than some others.
fn cell_and_bin(rng: &mut Rng) -> Field {
    let (mut field, band) = (nothing(), rng.below(4));
    field[rng.below(GRID)] = heavy(rng);
    field[GRID + 9 * rng.below(8) + band] = packed(rng.pick(&[19, 60, 255]), 255, bits(rng));
    for _ in 0..1 + rng.below(4) {
        field[GRID + 9 * rng.below(8) + band + 1 + rng.below(8 - band)] = heavy(rng);
    }
    field
}

/// Up to 13 places.
fn few(rng: &mut Rng) -> Field {
    let mut field = nothing();
    for _ in 0..rng.below(14) {
        field[rng.below(HALF)] = quiet(rng);
    }
    field
}

/// Cells within 25 km of the site in about four or five sectors, others farther off.
fn ring(rng: &mut Rng) -> Field {
    let mut field = nothing();
    let first = rng.below(8);
    let near = side(first, rng.int(3, 6) as usize);
    let all = if rng.one_in(2) { near } else { [true; 8] };
    fill(rng, &mut field, 4, heard, |at| {
        at < GRID && near[sector(at)] && square(at, (0, 0)) <= 100
    });
    fill(rng, &mut field, 1, heard, |at| {
        all[sector(at)] && (at >= GRID || square(at, (0, 0)) > 100)
    });
    field
}

/// Near the site up to four sectors, farther off all of them.
fn inside(rng: &mut Rng) -> Field {
    let (mut field, near) = (nothing(), any_side(rng, 4));
    fill(rng, &mut field, 6, quiet, |at| {
        at < GRID && near[sector(at)] && square(at, (0, 0)) <= 130
    });
    fill(rng, &mut field, 2, quiet, |at| {
        at >= GRID || square(at, (0, 0)) > 200
    });
    field
}

/// Up to four cells, with about as many bins as make twelve places, all on one side; few enough
/// positions that nothing-near does not ask.
fn few_cells(rng: &mut Rng) -> Field {
    let (mut field, marks) = (nothing(), any_side(rng, 4));
    let once = |rng: &mut Rng| packed(1 + u32::from(rng.one_in(6)), 255, bits(rng));
    let mut put = |rng: &mut Rng, from: usize, to: usize, n: usize| {
        for _ in 0..n {
            let at = from + rng.below(to - from);
            if marks[sector(at)] {
                field[at] = once(rng);
            }
        }
    };
    let (cells, bins) = (rng.below(9), 20 + rng.below(120));
    put(rng, 0, GRID, cells);
    put(rng, GRID, HALF, bins);
    field
}

/// All of a wedge of up to four sectors, from about 15 km on, thin or thick.
fn wedge(rng: &mut Rng) -> Field {
    let (mut field, marks) = (nothing(), any_side(rng, 4));
    let from = rng.pick(&[0, 10, 26, 34, 36, 50]);
    let part = rng.pick(&[1, 2, 4, 8, 15]);
    let word = rng.pick::<fn(&mut Rng) -> u32>(&[quiet, busy]);
    fill(rng, &mut field, part, word, |at| {
        at < GRID && marks[sector(at)] && square(at, (0, 0)) >= from
    });
    // One or two nearer ones do not close the hole.
    for _ in 0..rng.below(3) {
        let at = rng.below(GRID);
        if marks[sector(at)] && square(at, (0, 0)) < 36 {
            field[at] = quiet(rng);
        }
    }
    field
}

/// Every cell, or most, whose centre is over about 15 km to one side: Item 10's grid and others.
fn half_plane(rng: &mut Rng) -> Field {
    let mut field = nothing();
    let (turn, part) = (rng.below(4), rng.pick(&[3, 6, 16]));
    let (from, most) = (rng.int(3, 12), rng.int(8, 39));
    fill(rng, &mut field, part, busy, |at| {
        let (e, n) = centre(at.min(GRID - 1));
        let (ahead, across) = [(e, n), (n, e), (-e, n), (-n, e)][turn];
        at < GRID && ahead > from && ahead < from + most && across.abs() < most
    });
    field
}

/// A patch of a wedge of three sectors, 15 km to 50 km from the site.
fn close_blob(rng: &mut Rng) -> Field {
    let mut field = nothing();
    let first = rng.below(8);
    let marks = side(first, 3);
    let (most, part) = (rng.int(11, 20).pow(2), rng.pick(&[6, 10, 14, 16]));
    let word = rng.pick::<fn(&mut Rng) -> u32>(&[busy, heard]);
    fill(rng, &mut field, part, word, |at| {
        at < GRID && marks[sector(at)] && (36..=most).contains(&square(at, (0, 0)))
    });
    field
}

/// A disc anywhere in the grid, without what lies near the site, now and then with stray cells.
fn blob(rng: &mut Rng) -> Field {
    let mut field = nothing();
    let at = (rng.int(-32, 32), rng.int(-32, 32));
    disc(rng, &mut field, at);
    for (at, cell) in field.iter_mut().take(GRID).enumerate() {
        if square(at, (0, 0)) < 36 {
            *cell = EMPTY;
        }
    }
    if rng.one_in(4) {
        for _ in 0..3 {
            field[rng.below(HALF)] = quiet(rng);
        }
    }
    field
}

/// A disc around a point, whole or with holes.
fn disc(rng: &mut Rng, field: &mut Field, around: (i64, i64)) {
    let (most, part) = (rng.int(5, 13).pow(2), rng.pick(&[4, 8, 12, 15, 16]));
    let word = rng.pick::<fn(&mut Rng) -> u32>(&[busy, busy, heard]);
    fill(rng, field, part, word, |at| {
        at < GRID && square(at, around) <= most
    });
}

/// A disc moved to where the mean of its found cells is an exact tie: at 25 km, or halfway
/// between two steps. A move by whole cells moves the mean by as much, so only the part below a
/// cell must suit; the sides of a right triangle do. Half of them have a mean that f64 rounds,
/// a few one that it rounds to the other side of the tie.
fn ties(rng: &mut Rng) -> Field {
    let (rounds, lost) = (rng.one_in(2), rng.one_in(64));
    let tries = if lost { 4_000 } else { 400 };
    for _ in 0..tries {
        let mut field = nothing();
        disc(rng, &mut field, (0, 0));
        let Some((m, e, n)) = group_in(&field) else {
            continue;
        };
        // Sums of an odd number of odd numbers are odd, and two odd squares make no square.
        if m % 2 == 1 || (rounds && e % m == 0 && n % m == 0) {
            continue;
        }
        let reach = -16..=16;
        let moves: Vec<(i64, i64)> = reach
            .clone()
            .flat_map(|a| reach.clone().map(move |b| (a, b)))
            .filter(|(a, b)| {
                let mean = (m, e + 2 * a * m, n + 2 * b * m);
                is_tie(mean) && (!lost || is_lost(mean))
            })
            .collect();
        if !moves.is_empty() {
            let (a, b) = rng.pick(&moves);
            return moved(&field, a, b);
        }
    }
    blob(rng)
}

/// Whether a mean (cells, sums of their centres) is exactly 25 km or halfway between two steps
/// past that.
fn is_tie((m, e, n): (i64, i64, i64)) -> bool {
    let square = e * e + n * n;
    let root = square.isqrt();
    let length = root / m;
    root * root == square && root % m == 0 && (length == 10 || (length % 2 == 1 && length > 10))
}

/// Whether f64 puts such a mean below the tie, as the original reckons.
fn is_lost((m, e, n): (i64, i64, i64)) -> bool {
    let mean = |sum: i64| sum as f64 * 2.5 / m as f64;
    let exact = 2.5 * ((e * e + n * n).isqrt() / m) as f64;
    mean(e).hypot(mean(n)) < exact
}

/// A grid moved by whole columns and rows; what leaves the grid is lost.
fn moved(field: &Field, columns: i64, rows: i64) -> Field {
    let mut made = nothing();
    for (at, word) in field.iter().take(GRID).enumerate() {
        let (column, row) = (at as i64 % 40 + columns, at as i64 / 40 + rows);
        if (0..40).contains(&column) && (0..40).contains(&row) {
            made[(40 * row + column) as usize] = *word;
        }
    }
    made
}

/// A word cut into two that merge to it, where its count is at most 255.
fn cut(rng: &mut Rng, word: u32) -> (u32, u32) {
    let (count, low, bits) = (word % 256, word / 256 % 256, word / 65_536);
    let ours = rng.below(count as usize + 1) as u32;
    // Both may reach past 255 together, where the sum stops.
    let theirs = if count == 255 && rng.one_in(2) {
        255
    } else {
        count - ours
    };
    let higher = rng.int(i64::from(low), 255) as u32;
    let lows = if rng.one_in(2) {
        (low, higher)
    } else {
        (higher, low)
    };
    let mask = rng.next() as u32;
    let part = (bits & mask, bits & !(mask & rng.next() as u32));
    (packed(ours, lows.0, part.0), packed(theirs, lows.1, part.1))
}

/// A row whose merged view is the field: in one half or in both, with ids and times to match, and
/// junk in a half that is not merged. Now and then ids that no relay would make.
fn spread(rng: &mut Rng, field: &Field) -> (Box<[u32; CELLS]>, [Option<u64>; 2], u64) {
    let most = u64::MAX / EPOCH_MS;
    let current = match rng.below(8) {
        0 => 0,
        1 => 1,
        2 => most,
        3 => rng.next() % most,
        _ => 40_000 + rng.next() % 1_000,
    };
    let any = rng.next() % EPOCH_MS;
    let within = rng.pick(&[0, 1, EPOCH_MS - 1, any]);
    let now_ms = (current * EPOCH_MS).saturating_add(within);
    let mut cells = Box::new([EMPTY; CELLS]);
    let here = (current % 2) as usize;
    let mut ids = [None; 2];
    ids[here] = Some(current);
    ids[1 - here] = current.checked_sub(1);
    let junk = |rng: &mut Rng| {
        if rng.one_in(3) {
            rng.next() as u32
        } else {
            EMPTY
        }
    };
    match rng.below(4) {
        // Both halves.
        0 | 1 if ids[1 - here].is_some() => {
            for (at, word) in field.iter().enumerate() {
                let (a, b) = cut(rng, *word);
                cells[at] = a;
                cells[HALF + at] = b;
            }
        }
        // One half, the other none, too old or still to come.
        way => {
            let held = if way == 2 && ids[1 - here].is_some() {
                1 - here
            } else {
                here
            };
            cells[held * HALF..][..HALF].copy_from_slice(field);
            let other = rng.pick(&[
                None,
                current.checked_sub(2),
                current.checked_add(1),
                Some(u64::MAX),
            ]);
            ids[1 - held] = other;
            for cell in &mut cells[(1 - held) * HALF..][..HALF] {
                *cell = junk(rng);
            }
        }
    }
    if rng.one_in(32) {
        ids = rng.pick(&[
            [Some(current), Some(current)],
            [ids[1], ids[0]],
            [None, None],
            [Some(u64::MAX), Some(0)],
        ]);
    }
    (cells, ids, now_ms)
}

impl Case {
    /// A row that holds a field, with a site, an altitude and aircraft about as they come.
    pub fn new(rng: &mut Rng, maker: Maker) -> Self {
        let field = maker(rng);
        let (cells, ids, now_ms) = spread(rng, &field);
        let altitude = match rng.below(6) {
            0 => None,
            1 => Some(rng.int(-500, 0) as i32),
            2 => Some(rng.pick(&[i32::MIN, i32::MAX, 0, 1])),
            _ => Some(rng.int(0, 1_500) as i32),
        };
        let aircraft = match rng.below(24) {
            0 => rng.below(15) as u64,
            1 => u64::MAX,
            _ => 15 + rng.below(300) as u64,
        };
        let site = (!rng.one_in(40)).then_some(altitude);
        Self {
            held: Held { site, ids },
            cells,
            now_ms,
            aircraft,
        }
    }

    /// The row as text: what is not empty, each place with its word.
    pub fn text(&self) -> String {
        let cells: Vec<String> = self
            .cells
            .iter()
            .enumerate()
            .filter(|(_, word)| **word != EMPTY)
            .map(|(at, word)| format!("{at}:{word:x}"))
            .collect();
        format!(
            "{:?} now {} aircraft {} cells {}",
            self.held,
            self.now_ms,
            self.aircraft,
            cells.join(" ")
        )
    }
}

#[cfg(test)]
mod tests {
    use super::*;

    /// Two cut halves merge to the word.
    #[test]
    fn what_is_cut_merges() {
        let mut rng = Rng::new(5, "cut");
        for _ in 0..10_000 {
            let word = rng.next() as u32;
            let (a, b) = cut(&mut rng, word);
            let count = (a % 256 + b % 256).min(255);
            let low = (a / 256 % 256).min(b / 256 % 256);
            assert_eq!(packed(count, low, (a | b) / 65_536), word);
        }
    }

    /// Means of 25 km and 27.5 km are ties, one of 30 km is none; 34 cells whose sums are 1,056
    /// and 910 are on the tie at 102.5 km.
    #[test]
    fn ties_are_told() {
        assert!(is_tie((1, 6, 8)) && is_tie((4, 44, 0)) && is_tie((34, 1_056, -910)));
        assert!(!is_tie((1, 12, 0)) && !is_tie((1, 3, 4)) && !is_tie((4, 44, 1)));
        assert!(!is_lost((1, 6, 8)) && !is_lost((4, 44, 0)));
    }

    /// A move by whole cells moves a group's sums and nothing else.
    #[test]
    fn a_move_moves_the_mean() {
        let mut rng = Rng::new(5, "moves");
        for _ in 0..50 {
            let mut field = nothing();
            disc(&mut rng, &mut field, (0, 0));
            let Some((m, e, n)) = group_in(&field) else {
                continue;
            };
            let there = group_in(&moved(&field, 5, -7));
            assert_eq!(there, Some((m, e + 10 * m, n - 14 * m)));
        }
    }
}
