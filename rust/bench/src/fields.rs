//! Rows to judge, from the hardest to nothing heard.

use oracle::{CELLS, HALF, Held};

/// A row to judge.
pub struct Field {
    pub name: &'static str,
    pub held: Held,
    pub cells: Box<[u32; CELLS]>,
    pub now_ms: u64,
}

/// An empty cell.
const EMPTY: u32 = 65_280;

/// One position, no altitude, all aircraft bits.
const ALL_BITS: u32 = 1 + EMPTY + 0xFFFF_0000;

/// A row whose even half holds what `cell` says of each place; both halves where asked.
fn field(name: &'static str, both: bool, cell: impl Fn(usize) -> u32) -> Field {
    let mut cells = Box::new([EMPTY; CELLS]);
    for at in 0..HALF {
        cells[at] = cell(at);
        if both {
            cells[HALF + at] = cell(at);
        }
    }
    Field {
        name,
        held: Held {
            site: Some(None),
            ids: [Some(0), both.then_some(1)],
        },
        cells,
        now_ms: if both { 43_200_000 } else { 0 },
    }
}

/// A cell's centre in 2.5 km.
fn centre(at: usize) -> (i64, i64) {
    (2 * (at as i64 % 40) - 39, 2 * (at as i64 / 40) - 39)
}

/// A day of a receiver at (e, n): nearly all cells within 60 km, fewer farther off, some bins.
fn day(e: i64, n: i64) -> impl Fn(usize) -> u32 {
    move |at| {
        let mixed = (at as u32).wrapping_mul(0x9E37_79B1);
        let word = |count: u32| count + 256 * (20 + (mixed >> 27)) + 65_536 * (mixed >> 16);
        if at >= 1_600 {
            return if mixed >> 30 == 0 { word(3) } else { EMPTY };
        }
        let (x, y) = centre(at);
        let square = (x - e).pow(2) + (y - n).pow(2);
        let kept = match square {
            0..576 => mixed >> 28 != 0,
            576..1_600 => mixed >> 31 == 0,
            _ => mixed >> 29 == 0,
        };
        if kept { word(1 + (mixed >> 26)) } else { EMPTY }
    }
}

/// All rows that are timed.
pub fn all() -> Vec<Field> {
    let east = |at: usize| {
        if at < 1_600 && centre(at).0 > 6 {
            ALL_BITS
        } else {
            EMPTY
        }
    };
    vec![
        field("judging Item 10's grid", false, east),
        field("judging Item 10's grid in both halves", true, east),
        field("judging a full grid and full bins", true, |_| ALL_BITS),
        field("judging a typical day", true, day(0, 0)),
        field("judging a typical day 60 km off", true, move |at| {
            let word = day(24, 0)(at);
            // What a receiver with a short reach hears.
            let heard = at < 1_600 && (centre(at).0 - 24).pow(2) + centre(at).1.pow(2) < 256;
            if heard { word } else { EMPTY }
        }),
        field("judging 72 bins past the horizon", false, |at| {
            if at < 1_600 {
                EMPTY
            } else {
                3 + 256 + 0xFFFF_0000
            }
        }),
        field("judging one far bin (P10)", false, |at| {
            if at == 1_600 { 60 + EMPTY } else { EMPTY }
        }),
        field("judging an id held and no cell occupied", false, |_| EMPTY),
        nothing_heard(),
    ]
}

/// A row that claims a site and has heard no position: no id is held.
fn nothing_heard() -> Field {
    let mut field = field("judging nothing heard", false, |_| EMPTY);
    field.held.ids = [None, None];
    field
}
