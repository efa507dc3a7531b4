//! A row as it lies in the lent memory.

use crate::{Key, Site};

/// The numbers of one row.
pub const ROW_WORDS: usize = 25;

/// A link or an end that is none.
pub const NONE: u32 = u32::MAX;

/// A row as the calls write it: 25 numbers of 64 bits in this order, the `struct siting_row` of
/// `siting.h`. A number that begins with `has_` is 0 or 1 and says whether the number behind it is
/// held; what is not held is 0. Question 2 refuses a row with any other number there, a free one
/// too, and an accepted call leaves none.
///
/// ```
/// use siting::{Row, Site, Watch};
///
/// let mut watch = Watch::new(2)?;
/// let site = Site { lat: 51.4775, lon: -0.4614, alt_m: Some(-3) };
/// watch.claim(&[7; 32], Some(site))?;
/// let row: &Row = &Row::all(&watch.rows)[0];
/// assert_eq!(row.receiver(), [7; 32]);
/// assert_eq!(row.site(), Some(site));
/// assert_eq!(row.generation, 1);
/// # Ok::<(), siting::Refusal>(())
/// ```
#[repr(C)]
#[derive(Clone, Copy, Debug, Default, PartialEq, Eq)]
pub struct Row {
    /// The key: four little-endian words of eight bytes.
    pub key: [u64; 4],
    /// 1 where a site is claimed.
    pub has_site: u64,
    /// The bits of the site's latitude.
    pub lat_bits: u64,
    /// The bits of the site's longitude.
    pub lon_bits: u64,
    /// 1 where the antenna's altitude is known.
    pub has_alt: u64,
    /// The altitude's 32 bits.
    pub alt_m: u64,
    /// One more after each move, modulo 2^32.
    pub generation: u64,
    /// 1 where the even half holds an id.
    pub has_even: u64,
    /// The even half's id: milliseconds div 43,200,000.
    pub even_id: u64,
    /// 1 where the odd half holds an id.
    pub has_odd: u64,
    /// The odd half's id.
    pub odd_id: u64,
    /// 1 where the row was judged.
    pub has_verdict: u64,
    /// The last judging: 0 unjudged, 1 fits, 2 wrong.
    pub last: u64,
    /// The Wrongs in a row, stopped at 255.
    pub wrongs: u64,
    /// The others in a row, stopped at 255.
    pub others: u64,
    /// 1 where a distance is held.
    pub has_off: u64,
    /// The distance held, kilometres.
    pub off_km: u64,
    /// 1 where a move has ended the run.
    pub moved: u64,
    /// The row used before this one, or [`NONE`].
    pub before: u64,
    /// The row used after it, or the next free one, or [`NONE`].
    pub after: u64,
    /// 1 where a judging was accepted since the row was made.
    pub has_judged_ms: u64,
    /// The clock of the last accepted judging, milliseconds since 1970.
    pub judged_ms: u64,
}

// A row is its numbers and nothing else, so that a slice of either is one of the other.
const _: () = assert!(size_of::<Row>() == size_of::<[u64; ROW_WORDS]>());
const _: () = assert!(align_of::<Row>() == align_of::<u64>());

impl Row {
    /// The rows that these numbers are; fewer than 25 left over are no row.
    pub fn all(words: &[u64]) -> &[Self] {
        let (rows, _) = words.as_chunks::<ROW_WORDS>();
        // SAFETY: a row is 25 numbers of 64 bits without gaps (asserted above, `repr(C)`), any
        // bits are a number, and the borrow is the same.
        unsafe { std::slice::from_raw_parts(rows.as_ptr().cast(), rows.len()) }
    }

    /// The row's numbers.
    pub fn words(&self) -> &[u64; ROW_WORDS] {
        // SAFETY: as above, the other way round.
        unsafe { &*std::ptr::from_ref(self).cast() }
    }

    /// The receiver's key.
    pub fn receiver(&self) -> Key {
        key_of(&self.key)
    }

    /// The site that is claimed.
    pub fn site(&self) -> Option<Site> {
        (self.has_site == 1).then(|| Site {
            lat: f64::from_bits(self.lat_bits),
            lon: f64::from_bits(self.lon_bits),
            alt_m: (self.has_alt == 1).then_some(self.alt_m as u32 as i32),
        })
    }

    /// The ids of the even and of the odd half.
    pub fn ids(&self) -> [Option<u64>; 2] {
        [
            (self.has_even == 1).then_some(self.even_id),
            (self.has_odd == 1).then_some(self.odd_id),
        ]
    }

    /// The clock of the last accepted judging, if there was one since the row was made.
    pub fn judged_ms(&self) -> Option<u64> {
        (self.has_judged_ms == 1).then_some(self.judged_ms)
    }
}

/// A link's number, if it is one.
pub(crate) fn linked(link: u64) -> Option<usize> {
    (link != u64::from(NONE)).then_some(link as usize)
}

/// A key's bytes as four little-endian words, as a row and the C functions have it.
///
/// ```
/// assert_eq!(siting::words_of(&[1; 32])[3], 0x0101_0101_0101_0101);
/// ```
pub fn words_of(key: &Key) -> [u64; 4] {
    let (bytes, _) = key.as_chunks::<8>();
    std::array::from_fn(|at| u64::from_le_bytes(bytes[at]))
}

/// The key of four little-endian words.
pub(crate) fn key_of(words: &[u64; 4]) -> Key {
    let mut key = [0; 32];
    for (bytes, word) in key.chunks_exact_mut(8).zip(words) {
        bytes.copy_from_slice(&word.to_le_bytes());
    }
    key
}

#[cfg(test)]
mod tests {
    use super::*;

    #[test]
    fn a_key_comes_back() {
        let key: Key = std::array::from_fn(|at| 7 * at as u8);
        assert_eq!(key_of(&words_of(&key)), key);
    }

    /// Numbers that are no whole row are left out.
    #[test]
    fn rows_are_whole() {
        assert_eq!(Row::all(&[0; ROW_WORDS - 1]).len(), 0);
        let words: Vec<u64> = (0..51).collect();
        let rows = Row::all(&words);
        assert_eq!(rows.len(), 2);
        assert_eq!((rows[1].key[0], rows[1].judged_ms), (25, 49));
        assert_eq!(rows[1].words()[..], words[25..50]);
    }
}
