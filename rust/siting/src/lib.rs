//! The siting watch for a relay in Rust: the proved functions behind safe types.
//!
//! A receiver claims a site; the relay tells each position that it hears, judges it each half hour
//! by what it heard, and asks whether its site is held wrong. [`Watch`] has the seven calls and the
//! turn keeper ([`Watch::turn`]: whose turn it is in the half-hour round) with memory of its own,
//! [`Lent`] the same calls over memory that the caller owns, [`Refusal`] the nine reasons for
//! which nothing was done.
//!
//! ```
//! use siting::{Position, Refusal, Site, State, Watch};
//!
//! let mut watch = Watch::new(64)?; // room for 64 receivers, 4,096 at most
//! let receiver = [0xA1; 32];
//! let site = Site { lat: 51.4775, lon: -0.4614, alt_m: Some(40) };
//! let heard = Position { lat: 51.6, lon: -0.3, feet: Some(7_400), address: 77, at_ms: 5_000 };
//! watch.claim(&receiver, Some(site))?; // generation 1, nobody pushed out
//! watch.position(&receiver, &heard)?; // each aircraft position that the receiver sends
//! watch.judging(&receiver, 1_800_000, 1)?; // each half hour
//! assert_eq!(watch.check(&receiver)?, State::Unjudged);
//! assert_eq!(watch.check(&[0; 32]), Err(Refusal::NotHeld));
//! # Ok::<(), Refusal>(())
//! ```

#![warn(missing_docs)]

mod answers;
mod cells;
pub mod list;
pub mod raw;
mod row;
mod watch;

pub use answers::{Claimed, Evidence, Judgment, Key, Position, Refusal, Site, State, Turned};
pub use cells::{BAND_EDGES_KM, Cell, GRID_SIDE, HALF_CELLS, HALF_MS, ROW_CELLS};
pub use row::{NONE, ROW_WORDS, Row, words_of};
pub use watch::{Lent, MOST_ROWS, Watch};

/// The README's example runs as a test too.
#[cfg(doctest)]
#[doc = include_str!("../README.md")]
struct Readme;

/// The number of grid cells: a place below it is a cell, one from it on a far bin.
pub const GRID_CELLS: u16 = 1_600;

/// The places: 1,600 cells and 72 far bins.
pub const PLACES: u16 = 1_672;

/// Answered for a degree that is not finite, a latitude past 90 or a longitude past 180.
pub const OUT_OF_RANGE: u16 = 65_535;

/// The radio horizon, kilometres, of an antenna and an aircraft at these heights in metres: 4.12 ×
/// the sum of their roots, every operation rounded once. A NaN or a negative height is taken as 0.
///
/// ```
/// assert_eq!(siting::horizon_km(-5.0, 4.0), 2.0 * 4.12);
/// ```
pub fn horizon_km(antenna_m: f64, aircraft_m: f64) -> f64 {
    raw::horizon_km(antenna_m, aircraft_m)
}

/// The place of a position (`lat2`, `lon2`) seen from a site (`lat1`, `lon1`): 0 to 1,599 the
/// cell, 1,600 + the far bin, or [`OUT_OF_RANGE`].
///
/// ```
/// use siting::{GRID_CELLS, siting_place};
///
/// assert_eq!(siting_place(51.4775, -0.4614, 51.4775, -0.4614), 820);
/// assert_eq!(siting_place(0.0, 0.0, 0.0, 0.91), GRID_CELLS + 18); // due east, past the grid
/// ```
pub fn siting_place(lat1: f64, lon1: f64, lat2: f64, lon2: f64) -> u16 {
    raw::siting_place(lat1, lon1, lat2, lon2)
}

#[cfg(test)]
mod tests {
    use super::*;

    #[test]
    fn the_horizon_takes_a_negative_height_as_none() {
        assert_eq!(horizon_km(-5.0, 4.0), 2.0 * 4.12);
        assert_eq!(horizon_km(f64::NAN, -0.0).to_bits(), 0);
    }

    #[test]
    fn a_position_has_its_place() {
        assert_eq!(siting_place(51.4775, -0.5, 51.4775, -0.5), 820);
        // Due east, 1.3 km beyond the grid: sector 2, band 0.
        assert_eq!(siting_place(0.0, 0.0, 0.0, 0.91), GRID_CELLS + 18);
        assert_eq!(siting_place(0.0, 180.0, 0.0, -180.0), 820);
    }

    #[test]
    fn each_degree_is_asked_for_its_range() {
        assert!(siting_place(90.0, 180.0, -90.0, -180.0) < PLACES);
        for at in 0..4 {
            for bad in [f64::NAN, f64::INFINITY, 180.0_f64.next_up(), -181.0] {
                let mut degrees = [1.0; 4];
                degrees[at] = bad;
                let [lat1, lon1, lat2, lon2] = degrees;
                assert_eq!(siting_place(lat1, lon1, lat2, lon2), OUT_OF_RANGE);
            }
        }
        assert_eq!(
            siting_place(90.0_f64.next_up(), 0.0, 0.0, 0.0),
            OUT_OF_RANGE
        );
    }
}
