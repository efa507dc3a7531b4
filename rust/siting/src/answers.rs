//! What the calls take and answer, and why they are refused.

use std::fmt;

/// A receiver's key.
pub type Key = [u8; 32];

/// A claimed site, in degrees, with the antenna's altitude in metres, if it is known.
///
/// ```
/// use siting::Site;
///
/// let heathrow = Site { lat: 51.4775, lon: -0.4614, alt_m: Some(40) };
/// assert_ne!(heathrow, Site { alt_m: None, ..heathrow });
/// ```
#[derive(Clone, Copy, Debug, PartialEq)]
pub struct Site {
    /// Latitude, −90 to 90.
    pub lat: f64,
    /// Longitude, −180 to 180.
    pub lon: f64,
    /// Metres above the surface, if known.
    pub alt_m: Option<i32>,
}

/// A position that a receiver has heard.
///
/// ```
/// use siting::Position;
///
/// let heard = Position { lat: 51.6, lon: -0.3, feet: None, address: 0x40_6B_33, at_ms: 0 };
/// assert_eq!(heard.address, 4_221_747);
/// ```
#[derive(Clone, Copy, Debug, PartialEq)]
pub struct Position {
    /// Latitude, −90 to 90.
    pub lat: f64,
    /// Longitude, −180 to 180.
    pub lon: f64,
    /// The altitude, if it was said.
    pub feet: Option<i32>,
    /// The aircraft's address.
    pub address: u32,
    /// When, in milliseconds since 1970.
    pub at_ms: u64,
}

/// What an accepted claim answers.
#[derive(Clone, Copy, Debug, PartialEq, Eq)]
pub struct Claimed {
    /// The row's generation: one more after each move.
    pub generation: u32,
    /// The receiver that was pushed out for it.
    pub pushed_out: Option<Key>,
}

/// What an accepted tick of the turn keeper answers.
#[derive(Clone, Copy, Debug, PartialEq, Eq)]
pub struct Turned {
    /// How many keys were written to the list: those of the used rows among the named ones.
    pub count: usize,
    /// The next row number, to be handed to the next tick.
    pub next: u32,
}

/// By what a site was judged wrong.
///
/// ```
/// assert_eq!(siting::Evidence::NearField.to_string(), "near field");
/// ```
#[derive(Clone, Copy, Debug, PartialEq, Eq)]
pub enum Evidence {
    /// Aircraft were heard that lie past the site's horizon.
    Horizon,
    /// The cells around another place are heard all round, those around the site are not.
    NearField,
    /// All that was heard is far off, on one side.
    NothingNear,
}

impl fmt::Display for Evidence {
    fn fmt(&self, f: &mut fmt::Formatter<'_>) -> fmt::Result {
        f.write_str(match self {
            Self::Horizon => "horizon",
            Self::NearField => "near field",
            Self::NothingNear => "nothing near",
        })
    }
}

/// What a judging says.
#[derive(Clone, Copy, Debug, PartialEq, Eq)]
pub enum Judgment {
    /// Too little was heard, or nothing that decides.
    Unjudged,
    /// The site fits what was heard.
    Fits,
    /// The site is wrong.
    Wrong {
        /// By so many kilometres: a step of 5 from 5 to 800.
        off_km: u32,
        /// What says so.
        by: Evidence,
    },
}

/// What a check says.
///
/// ```
/// use siting::State;
///
/// assert_eq!(State::Wrong(60).to_string(), "wrong");
/// assert_eq!(State::Wrong(60).off_km(), Some(60));
/// assert_eq!(State::Fits.off_km(), None);
/// ```
#[derive(Clone, Copy, Debug, PartialEq, Eq)]
pub enum State {
    /// Nothing is held, and the last judging did not say Fits.
    Unjudged,
    /// Nothing is held, and the last judging said Fits.
    Fits,
    /// Held wrong, by so many kilometres.
    Wrong(u32),
}

impl State {
    /// The distance that is held.
    pub fn off_km(self) -> Option<u32> {
        match self {
            Self::Wrong(off_km) => Some(off_km),
            Self::Unjudged | Self::Fits => None,
        }
    }
}

impl fmt::Display for State {
    fn fmt(&self, f: &mut fmt::Formatter<'_>) -> fmt::Result {
        f.write_str(match self {
            Self::Unjudged => "unjudged",
            Self::Fits => "fits",
            Self::Wrong(_) => "wrong",
        })
    }
}

/// Why a call was refused: the first question that was answered no. Nothing has changed.
///
/// ```
/// use siting::{Refusal, Watch};
///
/// let refusal = Watch::new(0).unwrap_err();
/// assert_eq!(refusal, Refusal::Sizes);
/// assert_eq!(refusal.number(), 1);
/// assert_eq!(
///     refusal.to_string(),
///     "the watch has no rows, more than 4,096, or not 3,344 cells for each (refusal 1)"
/// );
/// ```
#[derive(Clone, Copy, Debug, PartialEq, Eq)]
pub enum Refusal {
    /// 1: the watch has no rows, more than 4,096, or not 3,344 cells for each.
    Sizes = 1,
    /// 2: a row stands in no chain or in two, or holds what no call writes.
    NotInOrder,
    /// 3: the receiver is not held, or for drop-oldest none is.
    NotHeld,
    /// 4: a degree is not finite or out of range.
    Degrees,
    /// 5: the receiver claims no site.
    NoSite,
    /// 6: the position is older than the half that it would be counted in.
    TooOld,
    /// 7: the receiver was not judged since it was made.
    NeverJudged,
    /// 8: a tick asks for no row or for more than there are, or its list holds too few keys.
    Turn,
    /// 9: it is less than half an hour since the receiver was last judged, or the clock has gone
    /// back. Asked of a judging, behind 3.
    TooSoon,
}

impl Refusal {
    /// All of them, by their numbers.
    pub const ALL: [Self; 9] = [
        Self::Sizes,
        Self::NotInOrder,
        Self::NotHeld,
        Self::Degrees,
        Self::NoSite,
        Self::TooOld,
        Self::NeverJudged,
        Self::Turn,
        Self::TooSoon,
    ];

    /// The refusal that a C function's answer says.
    pub(crate) fn of(number: u64) -> Self {
        Self::ALL
            .into_iter()
            .find(|refusal| u64::from(refusal.number()) == number)
            .unwrap_or_else(|| unreachable!("the contract has no refusal {number}"))
    }

    /// The question's number: 1 to 7 in the scope document, 8 and 9 in the requests after it.
    pub fn number(self) -> u8 {
        self as u8
    }
}

impl fmt::Display for Refusal {
    fn fmt(&self, f: &mut fmt::Formatter<'_>) -> fmt::Result {
        let sentence = match self {
            Self::Sizes => "the watch has no rows, more than 4,096, or not 3,344 cells for each",
            Self::NotInOrder => "the rows' chains, sites or distances are not in order",
            Self::NotHeld => "the receiver is not held",
            Self::Degrees => "a degree is not finite or out of range",
            Self::NoSite => "the receiver claims no site",
            Self::TooOld => "the position is older than the half that it would be counted in",
            Self::NeverJudged => "the receiver was not judged yet",
            Self::Turn => {
                "a tick names from 1 to all rows, and its list holds as many keys at least"
            }
            Self::TooSoon => "it is less than half an hour since the receiver was last judged",
        };
        write!(f, "{sentence} (refusal {})", self.number())
    }
}

impl std::error::Error for Refusal {}

#[cfg(test)]
mod tests {
    use super::*;

    /// Each refusal comes back from its number.
    #[test]
    fn refusals_have_the_papers_numbers() {
        for (number, refusal) in (1..=9).zip(Refusal::ALL) {
            assert_eq!(refusal.number(), number);
            assert_eq!(Refusal::of(u64::from(number)), refusal);
            assert!(
                refusal
                    .to_string()
                    .ends_with(&format!("(refusal {number})"))
            );
        }
    }
}
