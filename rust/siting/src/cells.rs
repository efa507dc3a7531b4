//! What a receiver's cells hold, to be looked at: nothing here decides anything.

use crate::Row;

/// The cells of one row: two halves of [`HALF_CELLS`].
pub const ROW_CELLS: usize = 3_344;

/// The cells of one half: 1,600 of the grid, from the south-west corner row by row, then 72 far
/// bins, 9 for each sector.
pub const HALF_CELLS: usize = 1_672;

/// The milliseconds that one half counts, before it is emptied for the next but one.
pub const HALF_MS: u64 = 43_200_000;

/// The grid is so many cells wide and high; each is 5 kilometres.
pub const GRID_SIDE: usize = 40;

/// Where each band of far bins begins, kilometres; the last has no end.
pub const BAND_EDGES_KM: [u32; 9] = [100, 150, 200, 250, 300, 350, 400, 500, 700];

/// What one cell holds.
///
/// ```
/// use siting::Cell;
///
/// let cell = Cell::of(3 + 256 * 14 + 65_536 * 0b101);
/// assert_eq!((cell.count, cell.lowest_feet(), cell.aircraft_bits), (3, Some(7_000), 5));
/// assert_eq!(Cell::of(65_280), Cell::EMPTY);
/// assert_eq!(Cell::EMPTY.lowest_feet(), None);
/// ```
#[derive(Clone, Copy, Debug, PartialEq, Eq)]
pub struct Cell {
    /// The positions counted, stopped at 255.
    pub count: u8,
    /// The least altitude bucket of 500 feet; 255 where none was said.
    pub low: u8,
    /// Which of sixteen marks the aircraft have left.
    pub aircraft_bits: u16,
}

impl Cell {
    /// A cell in which nothing was counted.
    pub const EMPTY: Self = Self {
        count: 0,
        low: 255,
        aircraft_bits: 0,
    };

    /// The cell of a word.
    pub fn of(word: u32) -> Self {
        let [count, low, a, b] = word.to_le_bytes();
        Self {
            count,
            low,
            aircraft_bits: u16::from_le_bytes([a, b]),
        }
    }

    /// The lowest altitude heard, rounded down to 500 feet.
    pub fn lowest_feet(self) -> Option<u32> {
        (self.low < 255).then(|| 500 * u32::from(self.low))
    }

    /// Both halves' cells as a judging takes them together.
    fn joined(self, other: Self) -> Self {
        Self {
            count: self.count.saturating_add(other.count),
            low: self.low.min(other.low),
            aircraft_bits: self.aircraft_bits | other.aircraft_bits,
        }
    }
}

/// The cells of a row that a judging at this time looks at: those halves joined whose id is of now
/// or of the half before. `words` are the row's [`ROW_CELLS`] cells.
pub(crate) fn judged(row: &Row, words: &[u32], now_ms: u64) -> Vec<Cell> {
    let now = now_ms / HALF_MS;
    let kept = |id: Option<u64>| id.is_some_and(|id| id == now || id.checked_add(1) == Some(now));
    let mut cells = vec![Cell::EMPTY; HALF_CELLS];
    for (half, id) in words.chunks_exact(HALF_CELLS).zip(row.ids()) {
        if kept(id) {
            for (cell, word) in cells.iter_mut().zip(half) {
                *cell = cell.joined(Cell::of(*word));
            }
        }
    }
    cells
}
