//! The document's judging over whole numbers, written a second time and plainly: it names the
//! branch that a row takes, and tells an exact tie, at which the original's f64 may go either way,
//! from a true difference. Lengths are in half cells (2.5 km), so a centre is a pair of odd numbers.

use oracle::{CELLS, HALF, Held};

/// Milliseconds of an epoch.
pub const EPOCH_MS: u64 = 43_200_000;

/// An empty cell.
pub const EMPTY: u32 = 65_280;

/// The grid's cells; the far bins follow.
pub const GRID: usize = 1_600;

/// The far bins' edges and typical distances, half cells.
const EDGES: [i64; 9] = [40, 60, 80, 100, 120, 140, 160, 200, 280];
const TYPICALS: [i64; 9] = [50, 70, 90, 110, 130, 150, 180, 240, 320];

/// Where a judging ends, in the document's order.
#[derive(Clone, Copy, Debug, PartialEq, Eq)]
pub enum Branch {
    NoSite,
    FewAircraft,
    HorizonByExcess,
    HorizonByNothingNear,
    NothingNear,
    FewPlaces,
    Fits,
    FourSectors,
    NotOutside,
    ThirdMissing,
    ThirdNear,
    NoneFound,
    MeanNear,
    NearField,
}

impl Branch {
    /// All of them.
    pub const ALL: [Self; 14] = [
        Self::NoSite,
        Self::FewAircraft,
        Self::HorizonByExcess,
        Self::HorizonByNothingNear,
        Self::NothingNear,
        Self::FewPlaces,
        Self::Fits,
        Self::FourSectors,
        Self::NotOutside,
        Self::ThirdMissing,
        Self::ThirdNear,
        Self::NoneFound,
        Self::MeanNear,
        Self::NearField,
    ];

    /// What is printed.
    pub fn name(self) -> &'static str {
        match self {
            Self::NoSite => "no site: Unjudged",
            Self::FewAircraft => "under 15 aircraft: Unjudged",
            Self::HorizonByExcess => "Horizon, off by the excess",
            Self::HorizonByNothingNear => "Horizon, off by the nothing-near distance",
            Self::NothingNear => "NothingNear",
            Self::FewPlaces => "under 12 places: Unjudged",
            Self::Fits => "5 or more sectors: Fits",
            Self::FourSectors => "4 sectors: Unjudged",
            Self::NotOutside => "not outside: Unjudged",
            Self::ThirdMissing => "third nearest cell missing: Unjudged",
            Self::ThirdNear => "third nearest cell under 15 km: Unjudged",
            Self::NoneFound => "none found: Unjudged",
            Self::MeanNear => "mean under 25 km: Unjudged",
            Self::NearField => "NearField",
        }
    }
}

/// Which places the typical distance leaves out (Item 2), and whether their order decides it.
#[derive(Clone, Copy, Debug, PartialEq, Eq)]
pub enum Skipped {
    None,
    OneOfTwo,
    TwoCells,
    CellAndBin,
    TwoBins,
    /// The last that is left out is as near as the first that is not, with other positions: two
    /// cells, or two bins. (No cell is as far as a bin's edge: two odd squares make no square.)
    EqualCells,
    EqualBins,
}

impl Skipped {
    /// All of them.
    pub const ALL: [Self; 7] = [
        Self::None,
        Self::OneOfTwo,
        Self::TwoCells,
        Self::CellAndBin,
        Self::TwoBins,
        Self::EqualCells,
        Self::EqualBins,
    ];

    /// What is printed.
    pub fn name(self) -> &'static str {
        match self {
            Self::None => "one place, none left out",
            Self::OneOfTwo => "the nearer of two places left out",
            Self::TwoCells => "two cells left out",
            Self::CellAndBin => "a cell and a bin left out",
            Self::TwoBins => "two bins left out",
            Self::EqualCells => "a cell left out, one as near not",
            Self::EqualBins => "a bin left out, one as near not",
        }
    }
}

/// A judging's end.
#[derive(Clone, Copy, Debug, PartialEq, Eq)]
pub struct Judged {
    pub branch: Branch,
    /// The judgment's number (see [`oracle::Number`]).
    pub number: u32,
    /// At an exact tie of the mean, the number on its other side.
    pub tie: Option<u32>,
    /// Where the nothing-near distance is said, what it leaves out.
    pub skipped: Option<Skipped>,
}

/// A merged cell's parts.
#[derive(Clone, Copy)]
struct Cell {
    count: u32,
    low: u32,
    bits: u32,
}

/// A cell of 32 bits, taken apart.
fn unpacked(word: u32) -> Cell {
    Cell {
        count: word % 256,
        low: word / 256 % 256,
        bits: word / 65_536,
    }
}

/// A packed cell.
pub fn packed(count: u32, low: u32, bits: u32) -> u32 {
    count + 256 * low + 65_536 * bits
}

/// Whether a half with this id is merged at `now_ms`.
pub fn kept(id: Option<u64>, now_ms: u64) -> bool {
    let current = now_ms / EPOCH_MS;
    id.is_some_and(|id| id == current || current.checked_sub(1) == Some(id))
}

/// The merged cells of a row.
fn merged(cells: &[u32; CELLS], ids: [Option<u64>; 2], now_ms: u64) -> Vec<Cell> {
    let mut merged = vec![unpacked(EMPTY); HALF];
    for (half, id) in cells.chunks(HALF).zip(ids) {
        if kept(id, now_ms) {
            for (sum, word) in merged.iter_mut().zip(half) {
                let cell = unpacked(*word);
                sum.count = (sum.count + cell.count).min(255);
                sum.low = sum.low.min(cell.low);
                sum.bits |= cell.bits;
            }
        }
    }
    merged
}

/// A grid cell's centre, half cells east and north of the site.
pub fn centre(at: usize) -> (i64, i64) {
    let at = at as i64;
    (2 * (at % 40) - 39, 2 * (at / 40) - 39)
}

/// The sector of a point: bearing 45k up to below 45(k + 1); 0 at the origin.
pub fn sector(e: i64, n: i64) -> usize {
    if 0 <= e && e < n {
        0
    } else if 0 < n && n <= e {
        1
    } else if n <= 0 && -n < e {
        2
    } else if 0 < e && e <= -n {
        3
    } else if e <= 0 && -e < -n {
        4
    } else if n < 0 && -n <= -e {
        5
    } else if 0 <= n && n < -e {
        6
    } else if e < 0 && -e <= n {
        7
    } else {
        0
    }
}

/// A length's square in steps of 5 km, halves up, at least one; the length is √square / m.
fn steps(square: i64, m: i64) -> i64 {
    let reached = |k: i64| (2 * k - 1) * (2 * k - 1) * m * m <= square;
    (1..=160).rev().find(|k| reached(*k)).unwrap_or(1)
}

/// Wrong by `steps` of 5 km, by evidence 1, 2 or 3.
fn wrong(steps: i64, by: u32) -> u32 {
    4 * 5 * steps as u32 + by
}

/// An occupied cell of the grid: its centre and its aircraft bits.
type Place = (i64, i64, u32);

/// The occupied cells, in cell order.
fn occupied(grid: &[Cell]) -> Vec<Place> {
    let held = grid.iter().enumerate().filter(|(_, cell)| cell.count > 0);
    held.map(|(at, cell)| (centre(at).0, centre(at).1, cell.bits))
        .collect()
}

/// What lies around a place: sectors (of cells over 3 km), aircraft bits and number of the cells
/// within 25 km.
fn around(places: &[Place], east: i64, north: i64) -> (usize, u32, usize) {
    let (mut sectors, mut bits, mut cells) = ([false; 8], 0, 0);
    for (e, n, theirs) in places {
        let (de, dn) = (e - east, n - north);
        let square = de * de + dn * dn;
        if square <= 100 {
            cells += 1;
            bits |= theirs;
            if 100 * square > 144 {
                sectors[sector(de, dn)] = true;
            }
        }
    }
    let sectors = sectors.iter().filter(|held| **held).count();
    (sectors, bits.count_ones(), cells)
}

/// The excess of the typical bin past the horizon, where enough are (f64, each step rounded once).
fn past_horizon(far: &[Cell], altitude: Option<i32>) -> Option<f64> {
    let antenna = f64::from(altitude.unwrap_or(0).max(0)) + 100.0;
    let (mut excesses, mut bits, mut past) = (Vec::new(), 0u32, 0);
    for (bin, cell) in far.iter().enumerate() {
        if cell.count == 0 || cell.low == 255 {
            continue;
        }
        let ceiling = f64::from((cell.low + 1) * 500) * 0.3048;
        let allowed = 1.1 * (4.12 * (antenna.sqrt() + ceiling.sqrt())) + 20.0;
        let edge = 2.5 * EDGES[bin % 9] as f64;
        if edge > allowed {
            excesses.push(edge - allowed);
            bits |= cell.bits;
            past += cell.count;
        }
    }
    let all: u32 = far.iter().map(|cell| cell.count).sum();
    let enough = excesses.len() >= 3 && bits.count_ones() >= 3 && past * 20 >= all;
    excesses.sort_by(f64::total_cmp);
    enough.then(|| excesses[excesses.len() / 2])
}

/// A place heard: its number (bins after cells), its nearest and typical distances, squared, and
/// its positions.
#[derive(Clone, Copy)]
struct Heard {
    at: usize,
    nearest: i64,
    typical: i64,
    positions: u32,
}

/// The typical distance in steps, where nothing is near, and which places it leaves out: it is the
/// median of those from the third nearest on, or of the farthest alone of fewer.
fn nothing_near(places: &[Heard]) -> Option<(i64, Skipped)> {
    let mut places = places.to_vec();
    places.sort_by_key(|place| (place.nearest, place.at));
    let third = places.get(2).or(places.last())?;
    let all: u32 = places.iter().map(|place| place.positions).sum();
    if all < 60 || third.nearest < 24 * 24 {
        return None;
    }
    let skipped = skipped(&places);
    let from = if places.len() < 3 {
        places.len() - 1
    } else {
        2
    };
    let mut typical = places.split_off(from);
    typical.sort_by_key(|place| place.typical);
    let total: u32 = typical.iter().map(|place| place.positions).sum();
    let mut passed = 0;
    let reached = |place: &&Heard| {
        passed += place.positions;
        2 * passed >= total
    };
    let median = typical.iter().find(reached)?;
    Some((steps(median.typical, 1), skipped))
}

/// What is left out of places that stand in their order.
fn skipped(places: &[Heard]) -> Skipped {
    let is_cell = |place: &Heard| place.at < GRID;
    match places {
        [_] => Skipped::None,
        [first, second, third, ..] => {
            let equal = second.nearest == third.nearest && second.positions != third.positions;
            match (is_cell(first), is_cell(second)) {
                (_, true) if equal => Skipped::EqualCells,
                (_, false) if equal => Skipped::EqualBins,
                (true, true) => Skipped::TwoCells,
                (false, false) => Skipped::TwoBins,
                _ => Skipped::CellAndBin,
            }
        }
        _ => Skipped::OneOfTwo,
    }
}

/// The cells found, each with the number of cells around it.
fn found(places: &[Place]) -> Vec<(usize, (i64, i64))> {
    let found = places.iter().filter_map(|(e, n, _)| {
        let (sectors, bits, cells) = around(places, *e, *n);
        (sectors >= 7 && bits >= 8).then_some((cells, (*e, *n)))
    });
    found.collect()
}

/// The found cells within 25 km of the best one: how many, and the sums of their centres.
fn group(found: &[(usize, (i64, i64))]) -> Option<(i64, i64, i64)> {
    let most = found.iter().map(|(cells, _)| *cells).max()?;
    let (_, best) = found.iter().find(|(cells, _)| *cells == most)?;
    let near = |at: &(i64, i64)| (at.0 - best.0).pow(2) + (at.1 - best.1).pow(2) <= 100;
    let group = found.iter().map(|(_, at)| *at).filter(near);
    Some(group.fold((0, 0, 0), |(m, e, n), at| (m + 1, e + at.0, n + at.1)))
}

/// The size and the sums of the group of the best found cell in a grid of packed cells.
pub fn group_in(grid: &[u32]) -> Option<(i64, i64, i64)> {
    let cells: Vec<Cell> = grid[..GRID].iter().copied().map(unpacked).collect();
    group(&found(&occupied(&cells)))
}

/// The near field's judgment.
fn near_field(grid: &[Cell], outside: bool) -> Judged {
    let ends = |branch, number| Judged {
        branch,
        number,
        tie: None,
        skipped: None,
    };
    let places = occupied(grid);
    let (sectors, _, _) = around(&places, 0, 0);
    if sectors >= 5 {
        return ends(Branch::Fits, 1);
    }
    if sectors == 4 {
        return ends(Branch::FourSectors, 0);
    }
    if !outside {
        return ends(Branch::NotOutside, 0);
    }
    let mut nearest: Vec<i64> = places.iter().map(|(e, n, _)| e * e + n * n).collect();
    nearest.sort_unstable();
    match nearest.get(2) {
        None => return ends(Branch::ThirdMissing, 0),
        Some(third) if *third < 36 => return ends(Branch::ThirdNear, 0),
        Some(_) => {}
    }
    let Some((m, e, n)) = group(&found(&places)) else {
        return ends(Branch::NoneFound, 0);
    };
    let square = e * e + n * n;
    if square < 100 * m * m {
        return ends(Branch::MeanNear, 0);
    }
    let k = steps(square, m);
    let tie = if square == 100 * m * m {
        Some(0)
    } else if square == (2 * k - 1).pow(2) * m * m {
        Some(wrong(k - 1, 2))
    } else {
        None
    };
    Judged {
        branch: Branch::NearField,
        number: wrong(k, 2),
        tie,
        skipped: None,
    }
}

/// The judging of a row.
pub fn judge(cells: &[u32; CELLS], held: &Held, now_ms: u64, aircraft: u64) -> Judged {
    let ends = |branch, number| Judged {
        branch,
        number,
        tie: None,
        skipped: None,
    };
    let Some(altitude) = held.site else {
        return ends(Branch::NoSite, 0);
    };
    if aircraft < 15 {
        return ends(Branch::FewAircraft, 0);
    }
    let cells = merged(cells, held.ids, now_ms);
    let (grid, far) = cells.split_at(GRID);
    let mut places = Vec::new();
    let mut sectors = [false; 8];
    for (at, cell) in grid.iter().enumerate().filter(|(_, cell)| cell.count > 0) {
        let (e, n) = centre(at);
        let square = e * e + n * n;
        places.push(Heard {
            at,
            nearest: square,
            typical: square,
            positions: cell.count,
        });
        if 100 * square > 144 {
            sectors[sector(e, n)] = true;
        }
    }
    for (bin, cell) in far.iter().enumerate().filter(|(_, cell)| cell.count > 0) {
        let (edge, typical) = (EDGES[bin % 9], TYPICALS[bin % 9]);
        places.push(Heard {
            at: GRID + bin,
            nearest: edge * edge,
            typical: typical * typical,
            positions: cell.count,
        });
        sectors[bin / 9] = true;
    }
    let outside = sectors.iter().filter(|held| **held).count() <= 4;
    let empty = nothing_near(&places).filter(|_| outside);
    let says = |branch, number, skipped| Judged {
        skipped: Some(skipped),
        ..ends(branch, number)
    };
    match (past_horizon(far, altitude), empty) {
        (Some(_), Some((k, skipped))) => {
            return says(Branch::HorizonByNothingNear, wrong(k, 1), skipped);
        }
        (Some(excess), None) => {
            let k = ((excess / 5.0).round() as i64).max(1);
            return ends(Branch::HorizonByExcess, wrong(k, 1));
        }
        (None, Some((k, skipped))) => return says(Branch::NothingNear, wrong(k, 3), skipped),
        (None, None) => {}
    }
    if places.len() < 12 {
        return ends(Branch::FewPlaces, 0);
    }
    near_field(grid, outside)
}

#[cfg(test)]
mod tests {
    use super::*;

    /// A row with these places in its even half, judged at 0 for 15 aircraft.
    fn judged(places: &[(usize, u32)]) -> Judged {
        let mut cells = [EMPTY; CELLS];
        for (at, word) in places {
            cells[*at] = *word;
        }
        let held = Held {
            site: Some(None),
            ids: [Some(0), None],
        };
        judge(&cells, &held, 0, 15)
    }

    /// The cell at a centre.
    fn at(e: i64, n: i64) -> usize {
        ((n + 39) / 2 * 40 + (e + 39) / 2) as usize
    }

    #[test]
    fn the_sheets_cases() {
        // P10, and the case of document 01 that Item 2 changes: both cells are left out.
        let bin = |count| judged(&[(GRID, packed(count, 255, 1))]);
        assert_eq!(bin(60).number, wrong(25, 3));
        assert_eq!(bin(59).number, 0);
        let near = [
            (at(1, 1), packed(255, 255, 1)),
            (at(1, 3), packed(1, 255, 1)),
            (GRID, packed(1, 255, 1)),
        ];
        assert_eq!(judged(&near).number, wrong(25, 3));
        assert_eq!(judged(&near).skipped, Some(Skipped::TwoCells));
    }

    /// Of cells equally near the first in cell order is left out, of bins that with the least
    /// number; of two places the nearer is, of one none.
    #[test]
    fn equals_keep_their_order() {
        let word = |count| packed(count, 255, 1);
        let said = |places: &[(usize, u32)]| judged(places);
        // The nearest, two that are 37 x 37 + 1 half cells away, and one farther off.
        let cells = |south, north| {
            said(&[
                (at(25, 1), word(60)),
                (at(37, -1), word(south)),
                (at(37, 1), word(north)),
                (at(39, 1), word(100)),
            ])
        };
        assert_eq!(cells(9, 200).number, wrong(19, 3));
        assert_eq!(cells(200, 9).number, wrong(20, 3));
        assert_eq!(cells(200, 9).skipped, Some(Skipped::EqualCells));
        // Bands 0, 1 and 1 of sectors 0, 1 and 2; band 2.
        let bins = |first, second| {
            said(&[
                (GRID, word(60)),
                (GRID + 10, word(first)),
                (GRID + 19, word(second)),
                (GRID + 2, word(100)),
            ])
        };
        assert_eq!(bins(9, 200).number, wrong(35, 3));
        assert_eq!(bins(200, 9).number, wrong(45, 3));
        assert_eq!(bins(200, 9).skipped, Some(Skipped::EqualBins));
        let two = said(&[(at(25, 1), word(255)), (GRID + 1, word(1))]);
        assert_eq!(
            (two.number, two.skipped),
            (wrong(35, 3), Some(Skipped::OneOfTwo))
        );
    }

    #[test]
    fn sectors_are_the_documents() {
        let cases = [
            ((1, 1), 1),
            ((-1, 1), 7),
            ((0, -2), 4),
            ((0, 1), 0),
            ((1, 0), 2),
            ((-1, 0), 6),
            ((1, -1), 3),
            ((-1, -1), 5),
            ((1, 2), 0),
            ((2, 1), 1),
            ((2, -1), 2),
            ((1, -2), 3),
            ((-1, -2), 4),
            ((-2, -1), 5),
            ((-2, 1), 6),
            ((-1, 2), 7),
        ];
        for ((e, n), want) in cases {
            assert_eq!(sector(e, n), want, "({e}, {n})");
        }
    }

    /// The original's sector of every offset between two centres, and of every centre.
    #[test]
    fn sectors_are_the_originals() {
        if !oracle::FOUND {
            return;
        }
        for e in -78..=78i64 {
            for n in -78..=78i64 {
                let theirs = oracle::Original::sector_of(2.5 * e as f64, 2.5 * n as f64);
                assert_eq!(sector(e, n), theirs, "({e}, {n})");
            }
        }
    }

    /// The original's said distance of every centre.
    #[test]
    fn steps_are_the_originals() {
        if !oracle::FOUND {
            return;
        }
        for (e, n) in (0..GRID).map(centre) {
            let km = (2.5 * e as f64).hypot(2.5 * n as f64);
            let theirs = i64::from(oracle::Original::rounded(km));
            assert_eq!(5 * steps(e * e + n * n, 1), theirs, "({e}, {n})");
        }
    }

    #[test]
    fn steps_go_halves_up() {
        // 7.4 km is under three half cells, 7.5 km is three; nothing says less than one step.
        assert_eq!(steps(8, 1), 1);
        assert_eq!(steps(9, 1), 2);
        assert_eq!(steps(0, 1), 1);
        // A mean of 27.5 km over four cells says 30.
        assert_eq!(steps(44 * 44, 4), 6);
        assert_eq!(steps(44 * 44 - 1, 4), 5);
    }

    #[test]
    fn halves_are_kept_by_their_id() {
        assert!(kept(Some(3), 3 * EPOCH_MS) && kept(Some(2), 3 * EPOCH_MS));
        assert!(!kept(Some(1), 3 * EPOCH_MS) && !kept(Some(4), 3 * EPOCH_MS));
        assert!(kept(Some(0), 0) && !kept(Some(u64::MAX), 0) && !kept(None, 0));
    }

    /// Item 10's grid: all cells with a centre over 15 km east.
    #[test]
    fn a_field_to_the_east() {
        let word = packed(1, 255, 0xFFFF);
        let east: Vec<(usize, u32)> = (0..GRID)
            .filter(|cell| centre(*cell).0 > 6)
            .map(|cell| (cell, word))
            .collect();
        assert_eq!(judged(&east).branch, Branch::NearField);
    }
}
