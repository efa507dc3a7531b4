//! The original as an oracle. build.rs lays its two files into the build's folder, unchanged but
//! for the edits that document 02 asks of the Rust; `reach.rs` is compiled as its `tests.rs`, a child module, and so reaches its private parts.
//! Where the source is not there, [`FOUND`] is false and nothing else here may be called.

/// A position or a site: latitude and longitude in degrees.
pub type Degrees = (f64, f64);

/// Cells of a row: two halves, each 1,600 grid cells and 72 far bins.
pub const CELLS: usize = 3_344;

/// The cells of one half.
pub const HALF: usize = 1_672;

/// What a row holds beside its cells, as the judging asks for it.
#[derive(Clone, Copy, Debug, PartialEq, Eq)]
pub struct Held {
    /// None: no site. Some: a site with this altitude or none (its degrees are not asked).
    pub site: Option<Option<i32>>,
    /// The ids of the even and of the odd half.
    pub ids: [Option<u64>; 2],
}

/// A judgment as one number: Unjudged 0, Fits 1, Wrong 4 × off + 1 (Horizon), 2 (NearField) or
/// 3 (NothingNear).
pub type Number = u32;

/// A receiver's key.
pub type Key = [u8; 32];

/// A claimed site.
#[derive(Clone, Copy, Debug, PartialEq)]
pub struct Claim {
    pub at: Degrees,
    pub alt_m: Option<i32>,
}

/// A row's run of judgments: the last (0 Unjudged, 1 Fits, 2 Wrong), both counts, the distance
/// held, and whether the site moved since.
#[derive(Clone, Copy, Debug, Default, PartialEq, Eq)]
pub struct Run {
    pub last: u8,
    pub wrongs: u8,
    pub others: u8,
    pub off_km: Option<u32>,
    pub moved: bool,
}

/// What a check says.
#[derive(Clone, Copy, Debug, PartialEq, Eq)]
pub enum State {
    Unjudged,
    Fits,
    Wrong(u32),
}

/// What the original holds of a receiver, its cells aside.
#[derive(Clone, Copy, Debug, PartialEq)]
pub struct Seen {
    pub key: Key,
    /// Its slot's number, where that can be told.
    pub number: Option<u32>,
    pub site: Option<Claim>,
    pub generation: u32,
    pub ids: [Option<u64>; 2],
    pub run: Option<Run>,
}

/// The folder of the original, or the one in which it was looked for.
pub const FOLDER: &str = include!(concat!(env!("OUT_DIR"), "/folder.rs"));

/// Whether the original was there when this was built.
pub const FOUND: bool = cfg!(original);

/// The line that says that the comparison is skipped; None where the original is there.
pub fn missing() -> Option<String> {
    (!FOUND).then(|| {
        format!(
            "oracle: source not found (siting.rs and bounded.rs in {FOLDER}; SITING_RUST_SRC names another folder): comparison skipped"
        )
    })
}

/// The original's functions, private ones included (`reach.rs`).
pub struct Original;

/// The original's own counting of a position, for the place it counts it at (`reach.rs`).
pub struct Counter {
    #[cfg(original)]
    heard: siting::Heard,
}

/// A row of the original with made-up cells (`reach.rs`).
pub struct Row {
    #[cfg(original)]
    heard: siting::Heard,
}

/// The original's three parts joined as the document joins them: a `Bounded` of `Heard` by key,
/// and the `Verdicts` (`relay.rs`).
pub struct Relay {
    #[cfg(original)]
    rows: bounded::Bounded<tally_wire::PublicKey, siting::Heard>,
    /// One for each key, which names that key alone in each of its rounds.
    #[cfg(original)]
    runs: std::collections::BTreeMap<Key, siting::Verdicts>,
    /// One for all, which names every row in each round.
    #[cfg(original)]
    rounds: siting::Verdicts,
    /// The keys whose rows were freed since a round in which `rounds` said of them what `runs` did.
    #[cfg(original)]
    freed: std::collections::BTreeSet<Key>,
    /// Where slot 0 lies, once a key was written, and how far apart slots are; no distance where
    /// rows were taken over, since the slots are then not the table's.
    #[cfg(original)]
    slots: (Option<usize>, Option<usize>),
}

#[cfg(original)]
include!(concat!(env!("OUT_DIR"), "/original.rs"));

#[cfg(not(original))]
mod absent;
