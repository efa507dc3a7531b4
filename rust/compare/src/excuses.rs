//! The excuses of the document ("Against the Rust"), each with how far it reaches, how often it
//! was taken and the largest distance seen.

/// An excuse.
#[derive(Clone, Copy, Debug, PartialEq, Eq)]
pub enum Kind {
    CellEdge,
    BandEdge,
    SectorEdge,
    OneKilometre,
    PolarSite,
    FarPosition,
    ZeroSign,
    Tie,
}

use Kind::{BandEdge, CellEdge, FarPosition, OneKilometre, PolarSite, SectorEdge, Tie, ZeroSign};

/// All of them, in the document's order.
const KINDS: [Kind; 8] = [
    CellEdge,
    OneKilometre,
    BandEdge,
    SectorEdge,
    PolarSite,
    FarPosition,
    Tie,
    ZeroSign,
];

/// A site past this latitude is excused.
pub const POLAR_DEG: f64 = 89.0;

/// A position past this distance is excused.
pub const FAR_KM: f64 = 19_000.0;

impl Kind {
    /// The document's words.
    pub fn name(self) -> &'static str {
        match self {
            CellEdge => "within 1 m of a cell edge",
            OneKilometre => "within 1 m of the 1 km edge",
            BandEdge => "within 2 m of a band edge",
            SectorEdge => "within 0.001 degree of a sector edge",
            PolarSite => "site past 89 degrees",
            FarPosition => "position past 19,000 km",
            Tie => "exact tie that hypot or the mean's division rounds",
            ZeroSign => "a zero's sign",
        }
    }

    /// The largest distance from the edge that is excused, with its unit; None where the excuse
    /// is no matter of a distance.
    pub fn limit(self) -> Option<(f64, &'static str)> {
        match self {
            CellEdge | OneKilometre => Some((1.0, "m")),
            BandEdge => Some((2.0, "m")),
            SectorEdge => Some((0.001, "deg")),
            PolarSite | FarPosition | Tie | ZeroSign => None,
        }
    }

    /// Whether an edge this far away is excused.
    pub fn reaches(self, distance: f64) -> bool {
        self.limit().is_none_or(|(most, _)| distance <= most)
    }
}

/// How often each excuse was taken.
#[derive(Default)]
pub struct Tally {
    rows: [(u64, f64); KINDS.len()],
}

impl Tally {
    /// Counts one difference under an excuse, at this distance from the edge.
    pub fn count(&mut self, kind: Kind, distance: f64) {
        let at = KINDS.iter().position(|k| *k == kind).expect("listed");
        let row = &mut self.rows[at];
        row.0 += 1;
        row.1 = row.1.max(distance);
    }

    /// How often an excuse was taken.
    pub fn of(&self, kind: Kind) -> u64 {
        let at = KINDS.iter().position(|k| *k == kind).expect("listed");
        self.rows[at].0
    }

    /// The table's lines for the excuses that a check knows.
    pub fn table(&self, kinds: &[Kind]) -> String {
        let mut text = format!("  {:<52} {:>9}  largest distance\n", "excuse", "count");
        for (kind, (count, largest)) in KINDS.iter().zip(self.rows) {
            if !kinds.contains(kind) {
                continue;
            }
            let seen = match kind.limit() {
                Some((most, unit)) if count > 0 => format!("{largest:.3e} of {most} {unit}"),
                _ => "-".to_string(),
            };
            text += &format!("  {:<52} {count:>9}  {seen}\n", kind.name());
        }
        text
    }
}

#[cfg(test)]
mod tests {
    use super::{Kind, Tally};

    #[test]
    fn limits_are_the_documents() {
        assert!(Kind::CellEdge.reaches(1.0) && !Kind::CellEdge.reaches(1.000_001));
        assert!(Kind::BandEdge.reaches(2.0) && !Kind::BandEdge.reaches(2.000_001));
        assert!(Kind::SectorEdge.reaches(0.001) && !Kind::SectorEdge.reaches(0.001_001));
        assert!(Kind::OneKilometre.reaches(1.0) && !Kind::OneKilometre.reaches(f64::NAN));
    }

    #[test]
    fn a_tally_keeps_the_largest() {
        let mut tally = Tally::default();
        tally.count(Kind::BandEdge, 0.5);
        tally.count(Kind::BandEdge, 0.25);
        let table = tally.table(&[Kind::BandEdge]);
        assert!(table.contains("2  5.000e-1 of 2 m"), "{table}");
        assert_eq!(table.lines().count(), 2);
    }
}
