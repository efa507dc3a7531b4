//! A day made up from a seed: eight receivers that hear aircraft around their antennas, one of
//! which claims a site 60 km from where it stands.

use std::fmt::Write;

use siting::list;

/// Midnight of the day (Monday, 2 March 2026), milliseconds.
const MIDNIGHT: u64 = 1_772_409_600_000;

/// The day's half hours, and the positions that each receiver hears in one.
const HALF_HOURS: u64 = 48;
const HEARD: u64 = 40;

/// Kilometres to a degree of latitude.
const DEGREE_KM: f64 = 111.195;

/// Random numbers (splitmix64), the same on every machine.
struct Rng(u64);

impl Rng {
    fn next(&mut self) -> u64 {
        self.0 = self.0.wrapping_add(0x9E37_79B9_7F4A_7C15);
        let mut z = self.0;
        z = (z ^ (z >> 30)).wrapping_mul(0xBF58_476D_1CE4_E5B9);
        z = (z ^ (z >> 27)).wrapping_mul(0x94D0_49BB_1331_11EB);
        z ^ (z >> 31)
    }

    /// From `low` up to `high`.
    fn float(&mut self, low: f64, high: f64) -> f64 {
        low + (high - low) * ((self.next() >> 11) as f64 / (1u64 << 53) as f64)
    }
}

/// A receiver of the day.
struct Receiver {
    key: String,
    /// Where its antenna stands.
    at: (f64, f64),
    /// Where it says that it stands.
    claims: (f64, f64),
    /// It hears so far all round, kilometres.
    near_km: f64,
    /// And this far within 30 degrees of this bearing: a valley, the sea.
    open: (f64, f64),
}

/// The point at a bearing and a distance; good enough for some hundred kilometres.
fn moved(at: (f64, f64), bearing: f64, km: f64) -> (f64, f64) {
    let (east, north) = bearing.to_radians().sin_cos();
    let lat = at.0 + km * north / DEGREE_KM;
    (lat, at.1 + km * east / DEGREE_KM / at.0.to_radians().cos())
}

/// The receivers: number 5 stands 60 km to the east-north-east of the site that it claims.
fn receivers(rng: &mut Rng) -> Vec<Receiver> {
    (0..8)
        .map(|number| {
            let at = (rng.float(46.0, 54.0), rng.float(-2.0, 14.0));
            let wrong = number == 5;
            let key = [(); 4].map(|()| rng.next().to_be_bytes()).concat();
            Receiver {
                key: list::long(&key.try_into().unwrap_or([0; 32])),
                at,
                claims: if wrong { moved(at, 247.5, 60.0) } else { at },
                near_km: if wrong { 40.0 } else { rng.float(30.0, 80.0) },
                open: if wrong {
                    (67.5, 260.0)
                } else {
                    (rng.float(0.0, 360.0), rng.float(120.0, 320.0))
                },
            }
        })
        .collect()
}

/// A position that a receiver hears at this time, as its line.
fn heard(rng: &mut Rng, receiver: &Receiver, from_ms: u64) -> String {
    // One in eight comes from afar, and flies high.
    let far = rng.next().is_multiple_of(8);
    let (bearing, km, feet) = if far {
        let (open, most) = receiver.open;
        let bearing = open + rng.float(-30.0, 30.0);
        (
            bearing,
            rng.float(60.0, most),
            rng.float(28_000.0, 41_000.0),
        )
    } else {
        let km = receiver.near_km * rng.float(0.0, 1.0).sqrt();
        (rng.float(0.0, 360.0), km, rng.float(1_500.0, 38_000.0))
    };
    let (lat, lon) = moved(receiver.at, bearing, km);
    let feet = 25 * (feet / 25.0) as i32;
    let address = 0x40_0000 + rng.next() % 90;
    let at_ms = from_ms + rng.next() % 1_800_000;
    let key = &receiver.key;
    format!("position {key} {lat:.4} {lon:.4} {feet} {address} {at_ms}\n")
}

/// The day as a list of calls, without judgings: those are the relay's own.
pub fn text(seed: u64) -> String {
    let mut rng = Rng(seed);
    let receivers = receivers(&mut rng);
    let mut text = format!("# A day of {} receivers, seed {seed}\n", receivers.len());
    for receiver in &receivers {
        let ((lat, lon), key) = (receiver.claims, &receiver.key);
        let _ = writeln!(text, "claim {key} {lat:.4} {lon:.4} {}", rng.next() % 400);
    }
    for half_hour in 0..HALF_HOURS {
        let from_ms = MIDNIGHT + half_hour * 1_800_000;
        for _ in 0..HEARD {
            for receiver in &receivers {
                text += &heard(&mut rng, receiver, from_ms);
            }
        }
    }
    text
}
