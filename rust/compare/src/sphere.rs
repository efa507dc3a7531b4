//! Positions made to order, and the distances to the edges between two places. The distances are
//! the original's own, in f64; no proved code is asked here.

use oracle::{Degrees, Original};

use crate::excuses::{FAR_KM, Kind, POLAR_DEG};

/// Kilometres of a degree on the sphere of the original's radius.
pub const DEGREE_KM: f64 = 6_371.008_8 * std::f64::consts::PI / 180.0;

/// The far bins' edges, kilometres.
pub const EDGES_KM: [f64; 9] = [
    100.0, 150.0, 200.0, 250.0, 300.0, 350.0, 400.0, 500.0, 700.0,
];

/// A tick, degrees.
pub const TICK: f64 = 1.0 / 16_777_216.0;

/// Whether the document's question 4 lets a pair of degrees pass.
pub fn in_range(at: Degrees) -> bool {
    at.0.is_finite() && at.1.is_finite() && at.0.abs() <= 90.0 && at.1.abs() <= 180.0
}

/// A longitude brought to -180 to 180.
pub fn turned(lon: f64) -> f64 {
    if lon > 180.0 {
        lon - 360.0
    } else if lon < -180.0 {
        lon + 360.0
    } else {
        lon
    }
}

/// The position `east` and `north` of a site on its plane, kilometres. May be out of range.
pub fn on_plane(site: Degrees, east: f64, north: f64) -> Degrees {
    let lat = site.0 + north / DEGREE_KM;
    let lon = site.1 + east / (DEGREE_KM * site.0.to_radians().cos());
    (lat, turned(lon))
}

/// The position at a bearing (degrees) and a distance (kilometres) on the sphere.
pub fn on_sphere(site: Degrees, bearing: f64, km: f64) -> Degrees {
    let (lat, lon) = (site.0.to_radians(), site.1.to_radians());
    let (bearing, arc) = (bearing.to_radians(), (km / DEGREE_KM).to_radians());
    let sine = lat.sin() * arc.cos() + lat.cos() * arc.sin() * bearing.cos();
    let to_lat = sine.clamp(-1.0, 1.0).asin();
    let y = bearing.sin() * arc.sin() * lat.cos();
    let x = arc.cos() - lat.sin() * sine;
    let to_lon = lon + y.atan2(x);
    (
        to_lat.to_degrees().clamp(-90.0, 90.0),
        turned(to_lon.to_degrees()).clamp(-180.0, 180.0),
    )
}

/// The number between `low` (where `past` is false) and `high` (where it is true) at which `past`
/// turns, to 2^-45 of their distance.
pub fn bisect(mut low: f64, mut high: f64, past: impl Fn(f64) -> bool) -> f64 {
    for _ in 0..45 {
        let middle = f64::midpoint(low, high);
        if past(middle) {
            high = middle;
        } else {
            low = middle;
        }
    }
    high
}

/// How far `bearing` is from `edge`, degrees, -180 up to 180.
pub fn off_bearing(bearing: f64, edge: f64) -> f64 {
    (bearing - edge + 540.0).rem_euclid(360.0) - 180.0
}

/// The distance, metres, of a plane coordinate (kilometres) to the edge between two lines of the
/// grid (columns or rows). None: one line; infinite: more than one edge between them.
fn to_line(km: f64, ours: u16, theirs: u16) -> Option<f64> {
    match ours.abs_diff(theirs) {
        0 => None,
        1 => {
            let edge = 5.0 * f64::from(ours.max(theirs)) - 100.0;
            Some((km - edge).abs() * 1_000.0)
        }
        _ => Some(f64::INFINITY),
    }
}

/// The distance, degrees, of a bearing to the edge between two sectors; likewise.
fn to_sector(bearing: f64, ours: u16, theirs: u16) -> Option<f64> {
    let edge = match (ours + 8 - theirs) % 8 {
        0 => return None,
        1 => ours,
        7 => theirs,
        _ => return Some(f64::INFINITY),
    };
    Some(off_bearing(bearing, 45.0 * f64::from(edge)).abs())
}

/// The distance, metres, of a distance in kilometres to the edge between two bands; likewise.
fn to_band(km: f64, ours: u16, theirs: u16) -> Option<f64> {
    match ours.abs_diff(theirs) {
        0 => None,
        1 => Some((km - EDGES_KM[usize::from(ours.max(theirs))]).abs() * 1_000.0),
        _ => Some(f64::INFINITY),
    }
}

/// The grid line of a plane coordinate, the outermost ones taken on beyond the grid.
fn line_of(km: f64) -> u16 {
    ((km + 100.0) / 5.0).clamp(0.0, 39.0) as u16
}

/// The far bin's sector and band by the original's bearing and distance.
fn bin_of(bearing: f64, km: f64) -> (u16, u16) {
    let band = EDGES_KM.iter().rposition(|edge| km >= *edge);
    ((bearing / 45.0) as u16 % 8, band.unwrap_or(0) as u16)
}

/// The edges that lie between two places, each with the position's distance to it; an infinite
/// one where no single edge does.
pub fn edges_between(site: Degrees, at: Degrees, ours: u16, theirs: u16) -> Vec<(Kind, f64)> {
    let (east, north) = Original::local_km(site, at);
    let mut edges = Vec::new();
    let mut add = |kind, distance: Option<f64>| edges.extend(distance.map(|d| (kind, d)));
    // Where one side is in the grid and the other past it, the grid's own edge lies between, and
    // what remains is held to what the original's formulas give on our side of it.
    let theirs = if (ours < 1_600) == (theirs < 1_600) {
        theirs
    } else {
        let beyond = (east.abs().max(north.abs()) - 100.0) * 1_000.0;
        add(Kind::CellEdge, Some(beyond.abs()));
        if ours < 1_600 {
            40 * line_of(north) + line_of(east)
        } else {
            let (sector, band) = bin_of(
                Original::bearing_deg(site, at),
                Original::distance_km(site, at),
            );
            1_600 + 9 * sector + band
        }
    };
    if ours < 1_600 {
        add(Kind::CellEdge, to_line(east, ours % 40, theirs % 40));
        add(Kind::CellEdge, to_line(north, ours / 40, theirs / 40));
    } else {
        let (ours, theirs) = (ours - 1_600, theirs - 1_600);
        let bearing = Original::bearing_deg(site, at);
        add(Kind::SectorEdge, to_sector(bearing, ours / 9, theirs / 9));
        let km = Original::distance_km(site, at);
        add(Kind::BandEdge, to_band(km, ours % 9, theirs % 9));
    }
    edges
}

/// Under which excuses two places may differ: the site's latitude, the position's distance, or
/// every edge between them. None: under none.
pub fn excused(site: Degrees, at: Degrees, ours: u16, theirs: u16) -> Option<Vec<(Kind, f64)>> {
    if ours >= 1_672 {
        return None;
    }
    if site.0.abs() > POLAR_DEG {
        return Some(vec![(Kind::PolarSite, 0.0)]);
    }
    if Original::distance_km(site, at) > FAR_KM {
        return Some(vec![(Kind::FarPosition, 0.0)]);
    }
    let edges = edges_between(site, at, ours, theirs);
    let near = edges.iter().all(|(kind, distance)| kind.reaches(*distance));
    near.then_some(edges)
}

#[cfg(test)]
mod tests {
    use super::*;

    #[test]
    fn lines_sectors_and_bands_know_their_edge() {
        let close = |got: Option<f64>, want: f64| (got.expect("an edge") - want).abs() < 1e-9;
        assert!(close(to_line(-95.001, 0, 1), 1.0));
        assert!(close(to_line(-95.0, 0, 1), 0.0));
        assert_eq!(to_line(0.0, 19, 19), None);
        assert_eq!(to_line(0.0, 19, 21), Some(f64::INFINITY));
        assert!(close(to_sector(44.5, 0, 1), 0.5));
        assert!(close(to_sector(44.5, 1, 0), 0.5));
        assert!(close(to_sector(359.0, 7, 0), 1.0));
        assert!(close(to_sector(1.0, 7, 0), 1.0));
        assert_eq!(to_sector(100.0, 1, 3), Some(f64::INFINITY));
        assert!(close(to_band(150.001, 0, 1), 1.0));
        assert!(close(to_band(699.999, 8, 7), 1.0));
        assert_eq!(to_band(150.0, 0, 2), Some(f64::INFINITY));
    }

    #[test]
    fn range_is_the_documents() {
        assert!(in_range((90.0, -180.0)) && in_range((-0.0, 180.0)));
        assert!(!in_range((90.0_f64.next_up(), 0.0)));
        assert!(!in_range((0.0, (-180.0_f64).next_down())));
        assert!(!in_range((f64::NAN, 0.0)) && !in_range((0.0, f64::INFINITY)));
    }

    #[test]
    fn bisection_finds_the_turn() {
        let at = bisect(0.0, 4.0, |x| x * x >= 2.0);
        assert!((at - std::f64::consts::SQRT_2).abs() < 1e-12);
    }

    /// What is made to order is where it was ordered, by the original's formulas.
    #[test]
    fn positions_are_where_they_were_ordered() {
        if !oracle::FOUND {
            return;
        }
        let site = (51.5, 179.9);
        let at = on_sphere(site, 100.0, 333.0);
        assert!((Original::distance_km(site, at) - 333.0).abs() < 1e-6);
        assert!(off_bearing(Original::bearing_deg(site, at), 100.0).abs() < 1e-9);
        let (east, north) = Original::local_km(site, on_plane(site, 42.0, -77.0));
        assert!((east - 42.0).abs() < 1e-6 && (north + 77.0).abs() < 1e-6);
    }

    /// A true edge is excused near it and not a metre too far; a wrong place never is.
    #[test]
    fn excuses_end_where_they_should() {
        if !oracle::FOUND {
            return;
        }
        let site = (51.5, 0.5);
        let cell = |row: u16, column: u16| 40 * row + column;
        let near = on_plane(site, 5.000_5, 2.5);
        assert!(excused(site, near, cell(20, 20), cell(20, 21)).is_some());
        assert!(excused(site, near, cell(20, 19), cell(20, 21)).is_none());
        assert!(excused(site, near, cell(19, 20), cell(20, 21)).is_none());
        let far = on_plane(site, 5.001_5, 2.5);
        assert!(excused(site, far, cell(20, 20), cell(20, 21)).is_none());
        // Past the grid by half a metre: the outermost cell is excused, its neighbour is not.
        let out = on_plane(site, 100.000_5, 2.5);
        let theirs = Original::place(site, out);
        assert!(theirs >= 1_600);
        assert!(excused(site, out, cell(20, 39), theirs).is_some());
        assert!(excused(site, out, cell(20, 38), theirs).is_none());
        // A bin for a cell, and the bin a wrong one.
        let inside = on_plane(site, 99.999_5, 2.5);
        assert!(excused(site, inside, theirs, cell(20, 39)).is_some());
        assert!(excused(site, inside, theirs + 18, cell(20, 39)).is_none());
        let band = on_sphere(site, 20.0, 150.001);
        assert!(excused(site, band, 1_600, 1_601).is_some());
        assert!(excused(site, on_sphere(site, 20.0, 150.003), 1_600, 1_601).is_none());
        assert!(excused((89.5, 0.0), (89.0, 170.0), 3, 1_601).is_some());
        assert!(excused(site, near, 65_535, 820).is_none());
    }
}
