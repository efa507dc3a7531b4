//! The document's ticks, plane and sphere over whole numbers, written a second time and plainly:
//! our placing and our same place must equal it always. Divisions round toward zero, as `/` does.

use oracle::Degrees;

use crate::model::sector;

/// The unit of sine and cosine.
const ONE: i128 = 1 << 30;

/// π as the document's fraction, over 10^20.
const PI: i128 = 314_159_265_358_979_323_846;

/// 180 with π's denominator.
const HALF_TURN: i128 = 180 * 100_000_000_000_000_000_000;

/// Radians of a tick, and millimetres of a tick, scaled.
const K: i128 = nearest(64 * (1 << 32) * PI, HALF_TURN);
const M: i128 = nearest(6_371_008_800 * 16 * PI, HALF_TURN);

/// The far bins' edges, kilometres.
const EDGES: [i128; 9] = [100, 150, 200, 250, 300, 350, 400, 500, 700];

/// The whole number nearest to a / b.
const fn nearest(a: i128, b: i128) -> i128 {
    (2 * a + b) / (2 * b)
}

/// Ticks of so many degrees.
const fn deg(degrees: i128) -> i128 {
    degrees << 24
}

/// The tick nearest to a degree in range, ties away from zero. Scaling by a power of two is exact.
pub fn tick(degrees: f64) -> i128 {
    (degrees * 16_777_216.0).round() as i128
}

/// sinH of an angle in 2^-30.
fn sin_h(r: i128) -> i128 {
    let z = r * r / ONE;
    let sum = |s: i128, k: i128| ONE - (z * s / ONE) / (2 * k * (2 * k + 1));
    r * (1..=6).rev().fold(ONE, sum) / ONE
}

/// The cosine's sum at an angle in 2^-30.
fn cos_h(r: i128) -> i128 {
    let z = r * r / ONE;
    let sum = |c: i128, k: i128| ONE - (z * c / ONE) / ((2 * k - 1) * 2 * k);
    (1..=7).rev().fold(ONE, sum)
}

/// Radians of ticks, 0 to 45 degrees, in 2^-30.
fn radians(t: i128) -> i128 {
    t * K / (1 << 32)
}

/// Sine of ticks, -180 to 180 degrees.
fn sine(t: i128) -> i128 {
    match t {
        _ if t < 0 => -sine(-t),
        _ if t > deg(90) => sine(deg(180) - t),
        _ if t > deg(45) => cos_h(radians(deg(90) - t)),
        _ => sin_h(radians(t)),
    }
}

/// Cosine of ticks, -180 to 180 degrees.
fn cosine(t: i128) -> i128 {
    match t {
        _ if t < 0 => cosine(-t),
        _ if t > deg(90) => -cosine(deg(180) - t),
        _ if t > deg(45) => sin_h(radians(deg(90) - t)),
        _ => cos_h(radians(t)),
    }
}

/// The haversine of two latitudes and their differences.
fn haversine(lat1: i128, lat2: i128, dlat: i128, dlon: i128) -> i128 {
    let (a, b) = (sine(dlat.abs() / 2), sine(dlon.abs() / 2));
    let q = cosine(lat1) * cosine(lat2) / ONE;
    a * a + (q * b / ONE) * b
}

/// The haversine of a distance in kilometres.
fn edge(km: i128) -> i128 {
    sin_h(km * ONE * 10_000 / 127_420_176).pow(2)
}

/// dlat and dlon in ticks, dlon from -180 up to below 180 degrees.
fn apart(from: Degrees, to: Degrees) -> (i128, i128) {
    let dlon = tick(to.1) - tick(from.1);
    let turned = (dlon + deg(180)).rem_euclid(deg(360)) - deg(180);
    (tick(to.0) - tick(from.0), turned)
}

/// The place of a position seen from a site, all degrees in range.
pub fn place(from: Degrees, to: Degrees) -> u16 {
    let (lat1, lat2) = (tick(from.0), tick(to.0));
    let (dlat, dlon) = apart(from, to);
    let east = (dlon * cosine(lat1) / ONE) * M / (1 << 28);
    let north = dlat * M / (1 << 28);
    let side = 100_000_000;
    if east.abs() < side && north.abs() < side {
        let line = |mm: i128| (mm + side) / 5_000_000;
        return (40 * line(north) + line(east)) as u16;
    }
    let y = sine(dlon) * cosine(lat2) / ONE;
    let x =
        cosine(lat1) * sine(lat2) / ONE - (sine(lat1) * cosine(lat2) / ONE) * cosine(dlon) / ONE;
    let h = haversine(lat1, lat2, dlat, dlon);
    let band = EDGES.iter().rposition(|km| h >= edge(*km)).unwrap_or(0);
    (1_600 + 9 * sector(y as i64, x as i64) + band) as u16
}

/// Whether two sites are at most 1 km apart, all degrees in range.
pub fn same_place(held: Degrees, claimed: Degrees) -> bool {
    let (dlat, dlon) = apart(held, claimed);
    haversine(tick(held.0), tick(claimed.0), dlat, dlon) <= edge(1)
}

#[cfg(test)]
mod tests {
    use super::*;

    #[test]
    fn constants_and_series() {
        assert_eq!((K, M), (4_797_524_517, 1_779_121_284));
        assert_eq!(sine(deg(45)), 759_250_124);
        assert_eq!(cosine(deg(45)), 759_250_126);
        assert_eq!((sine(deg(-180)), cosine(deg(-180))), (0, -ONE));
        assert_eq!(edge(1), 7_100_758_756);
    }

    #[test]
    fn ticks_go_away_from_zero() {
        let half = 0.5 / 16_777_216.0;
        assert_eq!((tick(half), tick(-half)), (1, -1));
        assert_eq!((tick(half.next_down()), tick(-(half.next_down()))), (0, 0));
        assert_eq!(tick(-180.0), deg(-180));
    }

    #[test]
    fn half_a_turn_is_taken_westward() {
        assert_eq!(apart((0.0, 0.0), (0.0, 180.0)).1, deg(-180));
        assert_eq!(apart((0.0, 180.0), (0.0, -180.0)).1, 0);
        assert_eq!(apart((0.0, 179.0), (1.0, -179.0)), (deg(1), deg(2)));
    }
}
