//! Compiled as the original's child module `tests`, so that its private parts are within reach.
//! The functions are methods of types of the crate, since no one outside names this module.

mod relay;

use super::*;
use crate::{CELLS, Counter, Degrees, HALF, Held, Number, Original, Row};

/// A site at `at`; its altitude matters to the judging alone.
fn site(at: Degrees) -> Site {
    Site {
        lat: at.0,
        lon: at.1,
        alt_m: None,
    }
}

/// A packed cell's parts.
fn unpacked(word: u32) -> Cell {
    Cell {
        count: word as u8,
        low: (word >> 8) as u8,
        aircraft: (word >> 16) as u16,
    }
}

impl Original {
    /// East and north of the site, kilometres.
    pub fn local_km(from: Degrees, to: Degrees) -> (f64, f64) {
        site(from).local_km(to.0, to.1)
    }

    /// Great-circle distance, kilometres.
    pub fn distance_km(from: Degrees, to: Degrees) -> f64 {
        site(from).distance_km(to.0, to.1)
    }

    /// Initial bearing, degrees, 0 to below 360.
    pub fn bearing_deg(from: Degrees, to: Degrees) -> f64 {
        site(from).bearing_deg(to.0, to.1)
    }

    /// Whether two sites are one for what is kept.
    pub fn same_place(held: Degrees, claimed: Degrees) -> bool {
        site(held).same_place(&site(claimed))
    }

    /// The sector of a point east and north of a place.
    pub fn sector_of(east: f64, north: f64) -> usize {
        sector_of(east, north)
    }

    /// A distance as it is said.
    pub fn rounded(km: f64) -> u32 {
        rounded(km)
    }

    /// The place of a position by the original's formulas: the cell, or 1,600 + the far bin. The
    /// original has them inside `heard` ([`Counter`] asks that); this is what is timed.
    #[inline(never)]
    pub fn place(from: Degrees, to: Degrees) -> u16 {
        let site = site(from);
        let (east, north) = site.local_km(to.0, to.1);
        let place = if east.abs() < GRID_KM && north.abs() < GRID_KM {
            let line = |km: f64| (((km + GRID_KM) / CELL_KM) as usize).min(SIDE - 1);
            line(north) * SIDE + line(east)
        } else {
            let sector = (site.bearing_deg(to.0, to.1) / 45.0) as usize % SECTORS;
            let km = site.distance_km(to.0, to.1);
            let band = FAR_EDGES_KM.iter().rposition(|edge| km >= *edge);
            GRID_CELLS + sector * FAR_EDGES_KM.len() + band.unwrap_or(0)
        };
        place as u16
    }

    /// The altitude bucket of feet.
    pub fn bucket(feet: Option<i32>) -> u8 {
        bucket(feet)
    }

    /// The bit that an aircraft's address is kept as.
    pub fn aircraft_bit(address: u32) -> u16 {
        aircraft_bit(address)
    }

    /// The radio horizon, kilometres.
    #[inline(never)]
    pub fn horizon_km(antenna_m: f64, aircraft_m: f64) -> f64 {
        horizon_km(antenna_m, aircraft_m)
    }
}

impl Counter {
    /// A row with one empty half, its grid made.
    #[allow(clippy::new_without_default)]
    pub fn new() -> Self {
        let mut epoch = Epoch::new(0);
        epoch.grid = Some(vec![Cell::EMPTY; GRID_CELLS].into());
        let heard = Heard {
            epochs: [Some(epoch), None],
            ..Heard::default()
        };
        Self { heard }
    }

    /// The place at which `heard` counts a position at `to` for a site at `from`; left empty.
    pub fn place(&mut self, from: Degrees, to: Degrees) -> u16 {
        self.heard.site = Some(site(from));
        self.heard.heard(to.0, to.1, None, 0, 0);
        // Where the formulas say, as a rule; else wherever it is.
        let likely = usize::from(Original::place(from, to));
        let at = if self.cell(likely).occupied() {
            likely
        } else {
            (0..HALF)
                .find(|at| self.cell(*at).occupied())
                .expect("a position of finite degrees is counted")
        };
        *self.cell(at) = Cell::EMPTY;
        at as u16
    }

    /// The half's cell at a place.
    fn cell(&mut self, at: usize) -> &mut Cell {
        let epoch = self.heard.epochs[0].as_mut().expect("made by `new`");
        match at.checked_sub(GRID_CELLS) {
            Some(bin) => &mut epoch.far[bin],
            None => &mut epoch.grid.as_mut().expect("made by `new`")[at],
        }
    }
}

/// The epochs of a row that holds these cells. A half without an id is none, as in the original,
/// which has no cells without an id.
fn epochs(ids: [Option<u64>; 2], cells: &[u32; CELLS]) -> [Option<Epoch>; 2] {
    let half = |k: usize| {
        let id = ids[k]?;
        let words = &cells[k * HALF..(k + 1) * HALF];
        let mut epoch = Epoch::new(id);
        let grid: Box<[Cell]> = words[..GRID_CELLS].iter().copied().map(unpacked).collect();
        // An empty grid is as good as none, and the original makes it late.
        if grid.iter().any(|cell| *cell != Cell::EMPTY) {
            epoch.grid = Some(grid);
        }
        for (bin, word) in epoch.far.iter_mut().zip(&words[GRID_CELLS..]) {
            *bin = unpacked(*word);
        }
        Some(epoch)
    };
    [half(0), half(1)]
}

/// A judgment as a number.
fn number(judgment: Judgment) -> Number {
    match judgment {
        Judgment::Unjudged => 0,
        Judgment::Fits => 1,
        Judgment::Wrong { off_km, by } => {
            let by = match by {
                Evidence::Horizon => 1,
                Evidence::NearField => 2,
                Evidence::NothingNear => 3,
            };
            4 * off_km + by
        }
    }
}

/// The judgment of a number.
fn judgment(number: Number) -> Judgment {
    let by = match number % 4 {
        1 => Evidence::Horizon,
        2 => Evidence::NearField,
        _ => Evidence::NothingNear,
    };
    match number {
        0 => Judgment::Unjudged,
        1 => Judgment::Fits,
        _ => Judgment::Wrong {
            off_km: number / 4,
            by,
        },
    }
}

impl Row {
    /// A row that holds these cells.
    pub fn new(held: &Held, cells: &[u32; CELLS]) -> Self {
        let heard = Heard {
            site: held.site.map(|alt_m| Site {
                lat: 0.0,
                lon: 0.0,
                alt_m,
            }),
            generation: 0,
            epochs: epochs(held.ids, cells),
        };
        Self { heard }
    }

    /// The original's judging, as a number.
    #[inline(never)]
    pub fn judge(&self, now_ms: u64, aircraft: u64) -> Number {
        let aircraft = usize::try_from(aircraft).unwrap_or(usize::MAX);
        number(self.heard.judge(now_ms, aircraft))
    }
}
