//! Pairs of a site and a position: random ones, and ones that seek the edges.

use oracle::{Degrees, Original};

use crate::rng::Rng;
use crate::sphere::{
    DEGREE_KM, EDGES_KM, TICK, bisect, in_range, off_bearing, on_plane, on_sphere, turned,
};

/// A site and a position.
pub type Pair = (Degrees, Degrees);

/// A way of making pairs.
pub type Maker = fn(&mut Rng, &mut Vec<Pair>);

/// The ways for placings, with the names that are printed.
pub const PLACINGS: [(&str, Maker); 13] = [
    ("whole globe", globe),
    ("in the grid", grid),
    ("far bins", far),
    ("around the poles", poles),
    ("across the date line", date_line),
    ("past 18,900 km", antipodes),
    ("cell edges", cell_edges),
    ("the grid's edge", grid_edge),
    ("band edges", band_edges),
    ("sector edges", sector_edges),
    ("cell corners", cell_corners),
    ("equal or due degrees", due),
    ("round degrees", round_degrees),
];

/// The ways for same places.
pub const SAME: [(&str, Maker); 7] = [
    ("whole globe", globe),
    ("within 3 km", near),
    ("the 1 km edge", kilometre),
    ("1 km, around the poles", kilometre_polar),
    ("1 km, across the date line", kilometre_date_line),
    ("equal or due degrees", due),
    ("round degrees", round_degrees),
];

/// Makes pairs in range, one in eight with its degrees brought beside half a tick.
pub fn make(rng: &mut Rng, maker: Maker, pairs: &mut Vec<Pair>) {
    pairs.clear();
    maker(rng, pairs);
    for (site, at) in pairs.iter_mut() {
        if rng.one_in(8) {
            *site = (half_tick(rng, site.0), half_tick(rng, site.1));
            *at = (half_tick(rng, at.0), half_tick(rng, at.1));
        }
    }
    pairs.retain(|(site, at)| in_range(*site) && in_range(*at));
}

/// A degree brought to the nearest half between two ticks, or to a float beside it.
fn half_tick(rng: &mut Rng, deg: f64) -> f64 {
    let half = ((deg / TICK).floor() + 0.5) * TICK;
    match rng.below(4) {
        0 => half,
        1 => half.next_up(),
        2 => half.next_down(),
        _ => deg,
    }
}

/// A site up to 89 degrees, a little beyond now and then.
fn site(rng: &mut Rng) -> Degrees {
    let most = if rng.one_in(64) { 90.0 } else { 89.0 };
    (rng.within(most), rng.within(180.0))
}

/// An offset from an edge in kilometres: most within 12 mm (two ticks), some within 3 m.
fn beside(rng: &mut Rng) -> f64 {
    match rng.below(8) {
        0 => 0.0,
        1 => rng.within(3e-3),
        _ => rng.within(12e-6),
    }
}

/// Both anywhere.
fn globe(rng: &mut Rng, pairs: &mut Vec<Pair>) {
    let any = |rng: &mut Rng| (rng.within(90.0), rng.within(180.0));
    pairs.push((any(rng), any(rng)));
}

/// A position up to 10 km past the grid.
fn grid(rng: &mut Rng, pairs: &mut Vec<Pair>) {
    let site = site(rng);
    pairs.push((site, on_plane(site, rng.within(110.0), rng.within(110.0))));
}

/// A position in the bands.
fn far(rng: &mut Rng, pairs: &mut Vec<Pair>) {
    let site = site(rng);
    let most = if rng.one_in(8) { 19_500.0 } else { 900.0 };
    let km = rng.float(90.0, most);
    pairs.push((site, on_sphere(site, rng.float(0.0, 360.0), km)));
}

/// A site within 6 degrees of a pole, the position about it or beyond the pole.
fn poles(rng: &mut Rng, pairs: &mut Vec<Pair>) {
    let sign = rng.pick(&[-1.0, 1.0]);
    let site = (sign * (90.0 - rng.float(0.0, 6.0)), rng.within(180.0));
    let at = match rng.below(3) {
        0 => (sign * (90.0 - rng.float(0.0, 6.0)), rng.within(180.0)),
        1 => on_sphere(site, rng.float(0.0, 360.0), rng.float(0.0, 900.0)),
        _ => on_plane(site, rng.within(110.0), rng.within(110.0)),
    };
    pairs.push((site, at));
}

/// A site close to 180 degrees, the position on either side.
fn date_line(rng: &mut Rng, pairs: &mut Vec<Pair>) {
    let lon = rng.pick(&[-1.0, 1.0]) * (180.0 - rng.float(0.0, 2.0));
    let site = (rng.within(89.0), lon);
    let at = if rng.one_in(2) {
        on_plane(site, rng.within(110.0), rng.within(110.0))
    } else {
        on_sphere(site, rng.float(0.0, 360.0), rng.float(90.0, 900.0))
    };
    let lon = if rng.one_in(8) {
        180.0_f64.copysign(at.1)
    } else {
        at.1
    };
    pairs.push((site, (at.0, lon)));
}

/// A position on the far side of the Earth.
fn antipodes(rng: &mut Rng, pairs: &mut Vec<Pair>) {
    let site = site(rng);
    let km = rng.float(18_900.0, 20_015.0);
    pairs.push((site, on_sphere(site, rng.float(0.0, 360.0), km)));
}

/// Positions beside an edge between two columns or two rows.
fn cell_edges(rng: &mut Rng, pairs: &mut Vec<Pair>) {
    let edge = 5.0 * rng.int(-19, 19) as f64;
    plane_edge(rng, edge, pairs);
}

/// Positions beside the edge of the grid.
fn grid_edge(rng: &mut Rng, pairs: &mut Vec<Pair>) {
    let edge = rng.pick(&[-100.0, 100.0]);
    plane_edge(rng, edge, pairs);
}

/// Positions beside the line of the plane at `edge` kilometres east or north.
fn plane_edge(rng: &mut Rng, edge: f64, pairs: &mut Vec<Pair>) {
    let site = site(rng);
    let (other, easterly) = (rng.within(101.0), rng.one_in(2));
    let at = |km: f64| {
        if easterly {
            on_plane(site, km, other)
        } else {
            on_plane(site, other, km)
        }
    };
    let turn = bisect(edge - 0.5, edge + 0.5, |km| {
        let (east, north) = Original::local_km(site, at(km));
        (if easterly { east } else { north }) >= edge
    });
    pairs.extend((0..6).map(|_| (site, at(turn + beside(rng)))));
}

/// Positions beside a band's edge.
fn band_edges(rng: &mut Rng, pairs: &mut Vec<Pair>) {
    let edge = rng.pick(&EDGES_KM);
    let site = site(rng);
    ring(rng, site, edge, pairs);
}

/// Positions beside the circle of `edge` kilometres around a site.
fn ring(rng: &mut Rng, site: Degrees, edge: f64, pairs: &mut Vec<Pair>) {
    let bearing = rng.float(0.0, 360.0);
    let at = |km: f64| on_sphere(site, bearing, km);
    let turn = bisect(edge - 0.5, edge + 0.5, |km| {
        Original::distance_km(site, at(km)) >= edge
    });
    pairs.extend((0..6).map(|_| (site, at(turn + beside(rng)))));
}

/// Positions beside a sector's edge.
fn sector_edges(rng: &mut Rng, pairs: &mut Vec<Pair>) {
    let (site, edge) = (site(rng), 45.0 * rng.below(8) as f64);
    let most = if rng.one_in(8) { 19_000.0 } else { 900.0 };
    let km = rng.float(95.0, most);
    let at = |bearing: f64| on_sphere(site, bearing, km);
    let turn = bisect(edge - 0.5, edge + 0.5, |bearing| {
        off_bearing(Original::bearing_deg(site, at(bearing)), edge) >= 0.0
    });
    // As many degrees as the offset takes there.
    let across = (km / DEGREE_KM).to_radians().sin().max(0.01) * DEGREE_KM;
    pairs.extend((0..6).map(|_| (site, at(turn + beside(rng) / across))));
}

/// Positions beside the corner of four cells, or of the grid.
fn cell_corners(rng: &mut Rng, pairs: &mut Vec<Pair>) {
    let site = site(rng);
    let (east, north) = (5.0 * rng.int(-20, 20) as f64, 5.0 * rng.int(-20, 20) as f64);
    pairs.extend((0..4).map(|_| {
        (
            site,
            on_plane(site, east + beside(rng), north + beside(rng)),
        )
    }));
}

/// A position due north, east, south or west, on the site itself, on a pole, or half round.
fn due(rng: &mut Rng, pairs: &mut Vec<Pair>) {
    let site = site(rng);
    let most = if rng.one_in(2) { 2.0 } else { 90.0 };
    let away = rng.within(most);
    let at = match rng.below(6) {
        0 => (site.0, turned(site.1 + away)),
        1 => ((site.0 + away).clamp(-90.0, 90.0), site.1),
        2 => site,
        3 => (rng.pick(&[-90.0, 90.0]), rng.within(180.0)),
        4 => (rng.within(90.0), turned(site.1 + 180.0)),
        _ => (-site.0, turned(site.1 + 180.0)),
    };
    pairs.push((site, at));
}

/// Degrees that are multiples of 45, whole, or a tick beside such.
fn round_degrees(rng: &mut Rng, pairs: &mut Vec<Pair>) {
    let one = |rng: &mut Rng, most: i64| {
        let deg = match rng.below(3) {
            0 => 45.0 * rng.int(-most / 45, most / 45) as f64,
            1 => rng.int(-most, most) as f64,
            _ => rng.int(-most * 4, most * 4) as f64 / 4.0,
        };
        let step = rng.pick(&[0.0, 0.0, 0.0, TICK, -TICK, TICK / 2.0, -TICK / 2.0]);
        (deg + step).clamp(-most as f64, most as f64)
    };
    let mut pair = || (one(rng, 90), one(rng, 180));
    let (site, mut at) = (pair(), pair());
    if rng.one_in(2) {
        at.0 = (site.0 + rng.int(-3, 3) as f64 * 0.25).clamp(-90.0, 90.0);
        at.1 = turned(site.1 + rng.int(-3, 3) as f64 * 0.25);
    }
    pairs.push((site, at));
}

/// Two sites up to 3 km apart.
fn near(rng: &mut Rng, pairs: &mut Vec<Pair>) {
    let site = site(rng);
    pairs.push((
        site,
        on_sphere(site, rng.float(0.0, 360.0), rng.float(0.0, 3.0)),
    ));
}

/// Two sites 1 km apart, about.
fn kilometre(rng: &mut Rng, pairs: &mut Vec<Pair>) {
    let site = site(rng);
    ring(rng, site, 1.0, pairs);
}

/// The same within 3 degrees of a pole.
fn kilometre_polar(rng: &mut Rng, pairs: &mut Vec<Pair>) {
    let sign = rng.pick(&[-1.0, 1.0]);
    let site = (sign * (90.0 - rng.float(0.0, 3.0)), rng.within(180.0));
    ring(rng, site, 1.0, pairs);
}

/// The same beside the date line.
fn kilometre_date_line(rng: &mut Rng, pairs: &mut Vec<Pair>) {
    let lon = rng.pick(&[-1.0, 1.0]) * (180.0 - rng.float(0.0, 0.01));
    let site = (rng.within(89.0), lon);
    ring(rng, site, 1.0, pairs);
}

#[cfg(test)]
mod tests {
    use super::*;

    /// The edge seekers land beside their edge, on both sides of it.
    #[test]
    fn edges_are_met_on_both_sides() {
        if !oracle::FOUND {
            return;
        }
        let mut rng = Rng::new(3, "edges");
        let mut sides = [0; 2];
        let mut pairs = Vec::new();
        for _ in 0..200 {
            pairs.clear();
            band_edges(&mut rng, &mut pairs);
            for (site, at) in &pairs {
                let km = Original::distance_km(*site, *at);
                let nearest = EDGES_KM
                    .iter()
                    .map(|edge| km - edge)
                    .min_by(|a, b| a.abs().total_cmp(&b.abs()))
                    .expect("nine edges");
                assert!(nearest.abs() < 4e-3, "{site:?} {at:?} {nearest}");
                sides[usize::from(nearest >= 0.0)] += 1;
            }
        }
        assert!(sides[0] > 200 && sides[1] > 200, "{sides:?}");
    }

    /// Half a tick is half a tick, or a float beside it, or the degree itself.
    #[test]
    fn half_ticks_are_halves() {
        let mut rng = Rng::new(3, "half ticks");
        for _ in 0..1_000 {
            let deg = rng.within(180.0);
            let made = half_tick(&mut rng, deg);
            let part = (made / TICK).rem_euclid(1.0);
            assert!(made == deg || (part - 0.5).abs() < 1e-6, "{deg} {made}");
        }
    }
}
