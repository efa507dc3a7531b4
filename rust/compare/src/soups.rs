//! The ways in which lists of calls are made.

use oracle::{CELLS, Claim, Degrees, Key, Run};

use crate::fields::{Case, WAYS};
use crate::log::Log;
use crate::model::EPOCH_MS;
use crate::rng::Rng;
use crate::script::Script;
use crate::sphere::{in_range, on_plane, on_sphere, turned};
use crate::text::UNREADABLE;
use crate::watch::{Answer, Call, Row, Tick, Watch};

/// A way of making a list.
pub type Maker = for<'a> fn(&mut Rng, &'a mut Log) -> Script<'a>;

/// The ways, with the names that are printed.
pub const MAKERS: [(&str, Maker); 9] = [
    ("soups on few keys, 1 to 5 rows", soup),
    ("days, all rows judged each half hour", days),
    ("floods of fresh keys against one receiver", flood),
    ("clocks that go back and jump", clocks),
    ("runs of judgings, counts to 255 and past", runs),
    ("moves, creeping sites, altitudes", moves),
    ("soups on 64 rows", wide),
    ("lent watches with made-up rows", lent),
    ("junk watches", junk),
];

/// The ways that are made on 4,096 rows, with about as many calls as one list has.
pub const FULL: [(&str, Maker, u64); 5] = [
    ("floods of fresh keys against one receiver", flood, 4_800),
    ("soups", soup, 1_200),
    ("days, all rows judged each half hour", days, 2_500),
    ("lent watches with made-up rows", lent, 200),
    ("junk watches", junk, 40),
];

/// The most receivers that hear something in a soup or a day, however many rows there are.
const HEARING: usize = 60;

/// As many rows are not flooded again and again.
const MANY: usize = 200;

/// Half an hour.
const HALF_HOUR: u64 = 1_800_000;

/// A key: one digit, a few, all zeros, or any.
pub fn key(rng: &mut Rng) -> Key {
    let mut key = [0; 32];
    match rng.below(4) {
        0 => key[31] = rng.below(16) as u8,
        1 => key[28..].copy_from_slice(&(rng.next() as u32).to_be_bytes()),
        _ => key.fill_with(|| rng.next() as u8),
    }
    key
}

/// So many keys, no two the same.
fn keys(rng: &mut Rng, n: usize) -> Vec<Key> {
    let mut keys: Vec<Key> = Vec::new();
    while keys.len() < n {
        let key = key(rng);
        if !keys.contains(&key) {
            keys.push(key);
        }
    }
    keys
}

/// Degrees as they are, or as a decimal of a few digits.
fn said(rng: &mut Rng, at: Degrees) -> Degrees {
    let scale = rng.pick(&[0.0, 1e4, 1e6, 1e9]);
    if scale == 0.0 {
        return at;
    }
    let short = |x: f64| (x * scale).round() / scale;
    (short(at.0), short(at.1))
}

/// A site anywhere; now and then at a pole, on the date line or at zero.
pub fn place(rng: &mut Rng) -> Degrees {
    let at = (rng.within(85.0), rng.within(180.0));
    match rng.below(40) {
        0..3 => (at.0, rng.pick(&[180.0, -180.0, 179.999, -179.999])),
        3..6 => (rng.pick(&[0.0, -0.0]), rng.pick(&[0.0, -0.0, at.1])),
        6..9 => (rng.pick(&[-88.9, 88.9, -86.0]), at.1),
        9 => (rng.pick(&[89.5, 90.0, -90.0]), at.1),
        _ => said(rng, at),
    }
}

/// Degrees out of range.
pub fn bad(rng: &mut Rng) -> Degrees {
    let (lat, lon) = (rng.within(90.0), rng.within(180.0));
    match rng.below(6) {
        // One NaN: the program keeps no other (docs/DIFFERENCES.md).
        0 => (f64::NAN, lon),
        1 => (lat, rng.pick(&[f64::INFINITY, f64::NEG_INFINITY, f64::NAN])),
        2 => (90.0_f64.next_up(), lon),
        3 => (lat, -180.0_f64.next_up()),
        4 => (-123.25, lon),
        _ => (lat, rng.pick(&[360.0, -180.5, 1e300])),
    }
}

/// An altitude or none.
pub fn altitude(rng: &mut Rng) -> Option<i32> {
    match rng.below(5) {
        0 | 1 => None,
        2 => Some(rng.pick(&[i32::MIN, i32::MAX, -1, 0])),
        _ => Some(rng.int(-100, 3_000) as i32),
    }
}

/// A height in feet, or none.
pub fn feet(rng: &mut Rng) -> Option<i32> {
    match rng.below(6) {
        0 | 1 => None,
        2 => Some(rng.pick(&[-1, 0, 499, 500, 127_000, 126_999, i32::MIN, i32::MAX])),
        _ => Some(rng.int(0, 45_000) as i32),
    }
}

/// Where the positions of a list fall, seen from the site.
#[derive(Clone, Copy)]
enum Scene {
    /// All round, up to so many kilometres.
    Round(f64),
    /// Around a point at this bearing and distance.
    Blob(f64, f64, f64),
    /// Past the grid, within 100 degrees from this bearing on.
    Side(f64),
    /// Far and low.
    Low,
    /// Anything.
    Any,
}

/// Any scene.
fn scene(rng: &mut Rng) -> Scene {
    match rng.below(8) {
        0 | 1 => Scene::Round(rng.pick(&[20.0, 40.0, 90.0, 300.0])),
        2..=4 => Scene::Blob(
            rng.float(0.0, 360.0),
            rng.float(30.0, 90.0),
            rng.float(5.0, 40.0),
        ),
        5 => Scene::Side(rng.float(0.0, 360.0)),
        6 => Scene::Low,
        _ => Scene::Any,
    }
}

/// A position of a scene, and its height.
fn heard(rng: &mut Rng, scene: Scene, site: Degrees) -> (Degrees, Option<i32>) {
    let bearing = rng.float(0.0, 360.0);
    let mut feet = feet(rng);
    let at = match scene {
        Scene::Round(most) => on_sphere(site, bearing, most * rng.float(0.0, 1.0).sqrt()),
        Scene::Blob(bearing, km, radius) => {
            let middle = on_sphere(site, bearing, km);
            let about = rng.float(0.0, 360.0);
            on_sphere(middle, about, radius * rng.float(0.0, 1.0).sqrt())
        }
        Scene::Side(from) => on_sphere(site, from + rng.float(0.0, 100.0), rng.float(105.0, 800.0)),
        Scene::Low => {
            feet = Some(rng.int(0, 9_000) as i32);
            on_sphere(site, bearing, rng.float(250.0, 900.0))
        }
        Scene::Any => match rng.below(3) {
            0 => on_plane(site, rng.within(110.0), rng.within(110.0)),
            1 => on_sphere(site, bearing, rng.float(0.0, 1_000.0)),
            _ => (rng.within(90.0), rng.within(180.0)),
        },
    };
    let at = said(rng, at);
    let at = if in_range(at) { at } else { site };
    (at, feet)
}

/// What a list of calls draws from.
struct Soup {
    keys: Vec<Key>,
    /// Sites in groups, those of a group within some hundreds of metres.
    sites: Vec<Degrees>,
    scene: Scene,
    /// The time now.
    clock: u64,
    addresses: Vec<u32>,
}

impl Soup {
    /// Of so many keys.
    fn new(rng: &mut Rng, n: usize) -> Self {
        let mut sites = Vec::new();
        for _ in 0..rng.int(1, 3) {
            let first = place(rng);
            sites.push(first);
            for _ in 0..rng.below(3) {
                let bearing = rng.float(0.0, 360.0);
                let km = rng.pick(&[0.0, 0.2, 0.6, 0.95, 1.05, 2.0, 30.0]);
                let near = on_sphere(first, bearing, km);
                sites.push(said(rng, near));
            }
        }
        sites.retain(|at| in_range(*at));
        Self {
            keys: keys(rng, n),
            sites,
            scene: scene(rng),
            clock: (40_000 + rng.next() % 4_000) * EPOCH_MS + rng.next() % EPOCH_MS,
            addresses: (0..rng.int(8, 60))
                .map(|_| rng.next() as u32 & 0xFF_FFFF)
                .collect(),
        }
    }

    /// A claim by a key.
    fn claim(&self, rng: &mut Rng, key: Key) -> Call {
        let site = match rng.below(24) {
            0 | 1 => None,
            2 => Some(bad(rng)),
            3 => Some(place(rng)),
            _ => Some(rng.pick(&self.sites)),
        };
        let site = site.map(|at| Claim {
            at,
            alt_m: altitude(rng),
        });
        Call::Claim(key, site)
    }

    /// A position of a key, around the site that it holds.
    fn position(&self, rng: &mut Rng, script: &Script, key: Key, at_ms: u64) -> Call {
        let row = script.watch.find(key);
        let site = row.and_then(|row| script.watch.rows[row].site);
        let site = site.map_or(self.sites[0], |site| site.at);
        let (at, feet) = heard(rng, self.scene, site);
        let at = if rng.one_in(40) { bad(rng) } else { at };
        Call::Position {
            key,
            at,
            feet,
            address: rng.pick(&self.addresses),
            at_ms,
        }
    }

    /// A judging of a key.
    fn judging(&self, rng: &mut Rng, key: Key) -> Call {
        // One that is ahead leaves those behind it too soon.
        let now_ms = match rng.below(48) {
            0 => self.clock.saturating_add(EPOCH_MS),
            1 => self.clock.saturating_add(2 * EPOCH_MS),
            2..5 => self.clock.saturating_sub(EPOCH_MS),
            5..8 => self.clock.saturating_sub(rng.next() % HALF_HOUR),
            _ => self.clock,
        };
        let aircraft = match rng.below(12) {
            0 => rng.below(15) as u64,
            1 => rng.pick(&[0, 14, 15, u64::MAX]),
            _ => 15 + rng.below(100) as u64,
        };
        Call::Judging {
            key,
            now_ms,
            aircraft,
        }
    }

    /// Any call, now and then a tick after it; the clock goes on a little, often by half an hour,
    /// now and then by hours.
    fn any(&mut self, rng: &mut Rng, script: &mut Script) {
        self.clock = match rng.below(64) {
            0 => self.clock.saturating_add(rng.next() % EPOCH_MS),
            1 => self.clock.saturating_sub(rng.next() % (2 * EPOCH_MS)),
            2..8 => self.clock.saturating_add(HALF_HOUR),
            _ => self.clock.saturating_add(rng.next() % 20_000),
        };
        let key = if rng.one_in(40) {
            key(rng)
        } else {
            rng.pick(&self.keys)
        };
        let call = match rng.below(100) {
            0..12 => self.claim(rng, key),
            12..68 => self.position(rng, script, key, self.clock),
            68..82 => self.judging(rng, key),
            82..95 => Call::Check(key),
            95..98 => Call::TakeOut(key),
            98 => Call::Drop,
            _ if rng.one_in(8) => Call::Fresh,
            _ => Call::Drop,
        };
        script.call(call);
        tick(rng, script, 25);
    }
}

/// A tick once in so many times: as a rule handed the number that the last one answered, for rows
/// that are there and a list with room for their keys. Whether one was made.
fn tick(rng: &mut Rng, script: &mut Script, times: usize) -> bool {
    // Stored lists draw nothing for it, so that they stay what they are.
    if script.log.stored || !rng.one_in(times) {
        return false;
    }
    let all = script.watch.rows.len() as u32;
    let any = rng.next() as u32;
    let next = match rng.below(8) {
        0..5 => script.next,
        5 => rng.pick(&[0, all.saturating_sub(1)]),
        6 => rng.pick(&[all, all + 1, 64, 4_096]),
        _ => rng.pick(&[u32::MAX, any]),
    };
    let k = match rng.below(10) {
        0 => 0,
        1 => rng.pick(&[all + 1, u32::MAX, any]),
        2 | 3 => all,
        4 | 5 => 1,
        _ => 1 + rng.below(all.clamp(1, 9) as usize) as u32,
    };
    let room = match rng.below(10) {
        0 => k.saturating_sub(1),
        1 => rng.below(k.clamp(1, 70) as usize) as u32,
        2 => rng.pick(&[64, u32::MAX]),
        3 => k.saturating_add(rng.below(9) as u32),
        _ => k,
    };
    script.tick(Tick { next, k, room });
    true
}

/// Looks at the whole state once in so many calls, now and then after a line that is no call.
fn look(rng: &mut Rng, script: &mut Script, calls: usize) {
    if rng.one_in(calls * script.log.rarer()) {
        match rng.below(8) {
            0 => script.unreadable(rng.pick(&UNREADABLE)),
            1 => script.note(rng.pick(&["", "no call"])),
            _ => {}
        }
        script.look();
    }
}

/// Any calls on about as many keys as rows.
fn soup<'a>(rng: &mut Rng, log: &'a mut Log) -> Script<'a> {
    let few = rng.int(1, 5) as usize;
    let rows = log.size.unwrap_or(few);
    let mut script = Script::new(rows, log);
    while script.calls() < script.log.length {
        let keys = rows.min(HEARING) + rng.below(3);
        let mut soup = Soup::new(rng, keys);
        let end = script.calls() + rng.int(100, 1_500) as u64;
        while script.calls() < end {
            soup.any(rng, &mut script);
            look(rng, &mut script, 60);
        }
    }
    script
}

/// Any calls on 64 rows.
fn wide<'a>(rng: &mut Rng, log: &'a mut Log) -> Script<'a> {
    let mut script = Script::new(64, log);
    let mut soup = Soup::new(rng, 70);
    while script.calls() < script.log.length {
        soup.any(rng, &mut script);
        look(rng, &mut script, 400);
    }
    script
}

/// Receivers that hear a few positions each half hour, all judged at its end; a move or a fresh
/// start now and then.
fn days<'a>(rng: &mut Rng, log: &'a mut Log) -> Script<'a> {
    let few = rng.int(1, 5) as usize;
    let rows = log.size.unwrap_or(few);
    let mut script = Script::new(rows, log);
    let mut soup = Soup::new(rng, rows.min(HEARING));
    let scenes: Vec<Scene> = soup.keys.iter().map(|_| scene(rng)).collect();
    for key in soup.keys.clone() {
        let claim = Claim {
            at: place(rng),
            alt_m: altitude(rng),
        };
        script.call(Call::Claim(key, Some(claim)));
    }
    soup.clock -= soup.clock % HALF_HOUR;
    let each = rng.int(2, 30) as usize;
    let quiet = rng.one_in(3);
    while script.calls() < script.log.length {
        for (key, scene) in soup.keys.clone().into_iter().zip(&scenes) {
            soup.scene = *scene;
            for _ in 0..rng.below(2 * each) {
                let at_ms = soup.clock + rng.next() % HALF_HOUR;
                let call = soup.position(rng, &script, key, at_ms);
                script.call(call);
            }
            if !quiet && rng.one_in(60) {
                let call = soup.claim(rng, key);
                script.call(call);
            }
            if !quiet && rng.one_in(60) {
                script.call(Call::TakeOut(key));
                let call = soup.claim(rng, key);
                script.call(call);
            }
        }
        soup.clock += HALF_HOUR;
        tick(rng, &mut script, 2);
        let few = rng.one_in(12);
        script.round(
            soup.clock,
            |key| if few { 9 } else { 15 + u64::from(key[31]) },
        );
        for key in soup.keys.clone() {
            script.call(Call::Check(key));
        }
        look(rng, &mut script, 4);
    }
    script
}

/// Fresh keys against one receiver: fewer than C between its marks, and now and then more.
fn flood<'a>(rng: &mut Rng, log: &'a mut Log) -> Script<'a> {
    let few = if rng.one_in(8) {
        64
    } else {
        rng.int(1, 5) as usize
    };
    let rows = log.size.unwrap_or(few);
    let mut script = Script::new(rows, log);
    let mut soup = Soup::new(rng, rows + 1);
    let receiver = soup.keys[0];
    script.guard(receiver);
    if rows >= MANY {
        // All rows are held first, and the receiver is pushed out by the last of C others.
        for key in soup.keys.clone() {
            let call = soup.claim(rng, key);
            if !matches!(script.call(call), Some(Answer::Claimed(..))) {
                script.call(Call::Claim(key, None));
            }
        }
    }
    while script.calls() < script.log.length {
        let held = script.watch.find(receiver);
        if held.is_none() || rng.one_in(6) {
            let call = soup.claim(rng, receiver);
            script.call(call);
        } else {
            let call = soup.position(rng, &script, receiver, soup.clock);
            script.call(call);
        }
        let beyond = rng.one_in(5) && rows < MANY;
        let others = if beyond {
            rows + rng.below(3)
        } else {
            rng.below(rows.min(MANY))
        };
        for k in 0..others {
            // Fresh, or one of those that come again.
            let key = if rng.one_in(3) {
                soup.keys[1 + k % rows]
            } else {
                key(rng)
            };
            let call = soup.claim(rng, key);
            script.call(call);
            for _ in 0..rng.below(3) {
                let call = match rng.below(4) {
                    0 => soup.judging(rng, receiver),
                    1 => Call::Check(receiver),
                    2 => Call::Check(key),
                    _ => soup.position(rng, &script, key, soup.clock),
                };
                script.call(call);
            }
            if rng.one_in(9) {
                script.call(Call::TakeOut(key));
            }
            tick(rng, &mut script, 20);
        }
        if rng.one_in(40) {
            script.call(Call::TakeOut(receiver));
        }
        let step = rng.pick(&[900_000, 2 * HALF_HOUR]);
        soup.clock += rng.next() % step;
        look(rng, &mut script, if rows >= 64 { 20 } else { 8 });
    }
    script
}

/// Times at the ends of epochs, at 0 and at the largest number, back and forth.
fn clocks<'a>(rng: &mut Rng, log: &'a mut Log) -> Script<'a> {
    let rows = rng.int(1, 3) as usize;
    let mut script = Script::new(rows, log);
    let mut soup = Soup::new(rng, rows);
    let top = u64::MAX / EPOCH_MS;
    while script.calls() < script.log.length {
        let base = rng.pick(&[0, 2, 41_000, top - 4]);
        for _ in 0..rng.int(20, 300) {
            let key = rng.pick(&soup.keys);
            let within = rng.pick(&[0, 1, EPOCH_MS / 2, EPOCH_MS - 1]);
            let at = ((base + rng.below(5) as u64) * EPOCH_MS).saturating_add(within);
            soup.clock = if rng.one_in(50) {
                rng.pick(&[0, u64::MAX])
            } else {
                at
            };
            let call = match rng.below(16) {
                0 => soup.claim(rng, key),
                1..=9 => soup.position(rng, &script, key, soup.clock),
                10..=12 => soup.judging(rng, key),
                13 if rng.one_in(6) => Call::TakeOut(key),
                _ => Call::Check(key),
            };
            script.call(call);
            tick(rng, &mut script, 30);
            look(rng, &mut script, 40);
        }
        // A clock near 2^64 leaves every judging too soon until the row is made anew.
        match rng.below(3) {
            0 => drop(script.call(Call::Fresh)),
            1 => {
                for key in soup.keys.clone() {
                    script.call(Call::TakeOut(key));
                }
            }
            _ => {}
        }
    }
    script
}

/// A key hears so many positions.
fn hears(rng: &mut Rng, script: &mut Script, soup: &Soup, key: Key, times: i64) {
    for _ in 0..times {
        let call = soup.position(rng, script, key, soup.clock);
        script.call(call);
    }
}

/// Judgings in a row, half an hour apart as a rule, some too soon: the number of aircraft, or a
/// time at which nothing is kept, makes an Unjudged of any row.
fn runs<'a>(rng: &mut Rng, log: &'a mut Log) -> Script<'a> {
    let rows = rng.int(1, 3) as usize;
    let mut script = Script::new(rows, log);
    let mut soup = Soup::new(rng, rows);
    let mut scenes = Vec::new();
    for key in soup.keys.clone() {
        // Wrong or fitting as a rule.
        let middle = (rng.within(60.0), rng.within(179.0));
        let at = said(rng, middle);
        script.call(Call::Claim(key, Some(Claim { at, alt_m: None })));
        soup.scene = match rng.below(6) {
            0 | 1 => Scene::Round(40.0),
            2 => Scene::Blob(rng.float(0.0, 360.0), 60.0, 35.0),
            3 => Scene::Side(rng.float(0.0, 360.0)),
            4 => Scene::Low,
            _ => scene(rng),
        };
        scenes.push(soup.scene);
        let times = rng.int(80, 300);
        hears(rng, &mut script, &soup, key, times);
        // One place until its count stops.
        if rng.one_in(3) {
            let call = soup.position(rng, &script, key, soup.clock);
            for _ in 0..rng.int(250, 260) {
                script.call(call);
            }
        }
    }
    script.look();
    let mut heard = soup.clock;
    let end = script.calls() + script.log.length;
    while script.calls() < end {
        let of = rng.below(rows);
        let key = soup.keys[of];
        let long = rng.one_in(12);
        let times = if long {
            rng.int(285, 330)
        } else {
            rng.int(1, 5)
        };
        let (gap, aircraft) = rng.pick(&[(0, 40), (0, 40), (0, 14), (3 * EPOCH_MS, 40)]);
        soup.clock += gap;
        for _ in 0..times {
            // What was heard is kept for an epoch at least.
            if gap == 0 && soup.clock - heard > EPOCH_MS {
                heard = soup.clock;
                soup.scene = scenes[of];
                hears(rng, &mut script, &soup, key, 80);
            }
            let back = rng.pick(&[0, 1, 300_000, HALF_HOUR]);
            let now_ms = if rng.one_in(12) {
                soup.clock - back
            } else {
                soup.clock += HALF_HOUR;
                soup.clock
            };
            script.call(Call::Judging {
                key,
                now_ms,
                aircraft,
            });
            if !long || rng.one_in(10) {
                script.call(Call::Check(key));
            }
        }
        if rng.one_in(200) {
            let call = soup.claim(rng, key);
            script.call(call);
            script.call(Call::Check(key));
        }
        if rng.one_in(3) {
            let call = soup.position(rng, &script, key, soup.clock);
            script.call(call);
        }
        tick(rng, &mut script, 6);
        look(rng, &mut script, 6);
    }
    script
}

/// One receiver, or two, whose site creeps by some hundreds of metres, jumps, goes and comes.
fn moves<'a>(rng: &mut Rng, log: &'a mut Log) -> Script<'a> {
    let rows = rng.int(1, 2) as usize;
    let mut script = Script::new(rows, log);
    let mut soup = Soup::new(rng, rows);
    let mut at = place(rng);
    while script.calls() < script.log.length {
        let key = rng.pick(&soup.keys);
        let bearing = rng.float(0.0, 360.0);
        at = match rng.below(12) {
            0 => place(rng),
            1 => on_sphere(at, bearing, rng.float(1.0, 60.0)),
            2 => on_sphere(at, bearing, rng.float(0.99, 1.01)),
            3 => (at.0, turned(at.1 + 360.0).clamp(-180.0, 180.0)),
            4 => (at.0, -at.1),
            _ => on_sphere(at, bearing, rng.float(0.0, 0.9)),
        };
        at = said(rng, at);
        if !in_range(at) {
            at = place(rng);
        }
        let site = (!rng.one_in(10)).then(|| Claim {
            at,
            alt_m: altitude(rng),
        });
        script.call(Call::Claim(key, site));
        for _ in 0..rng.below(5) {
            let call = soup.position(rng, &script, key, soup.clock);
            script.call(call);
        }
        for _ in 0..rng.below(4) {
            let call = soup.judging(rng, key);
            script.call(call);
            script.call(Call::Check(key));
            soup.clock += rng.pick(&[0, HALF_HOUR, HALF_HOUR]);
        }
        if rng.one_in(4) {
            script.call(Call::Check(key));
        }
        soup.clock += rng.next() % HALF_HOUR;
        tick(rng, &mut script, 6);
        look(rng, &mut script, 8);
    }
    script
}

/// A run that a row may hold.
fn any_run(rng: &mut Rng) -> Option<Run> {
    (!rng.one_in(4)).then(|| Run {
        last: rng.below(3) as u8,
        wrongs: rng.pick(&[0, 1, 2, 3, 254, 255]),
        others: rng.pick(&[0, 1, 2, 3, 254, 255]),
        off_km: rng.one_in(2).then(|| 5 * rng.int(1, 160) as u32),
        moved: rng.one_in(3),
    })
}

/// A row with anything that question 2 lets pass.
fn any_row(rng: &mut Rng, key: Key) -> Row {
    let id = |rng: &mut Rng| {
        let any = rng.next();
        rng.pick(&[
            None,
            Some(0),
            Some(1),
            Some(40_000),
            Some(40_001),
            Some(u64::MAX),
            Some(any),
        ])
    };
    // The kept clock: any, and those near 2^64 that leave every judging too soon.
    let judged_ms = match rng.below(8) {
        0..4 => None,
        4 => Some(rng.next()),
        5 => Some(rng.pick(&[0, 1, 40_000 * EPOCH_MS])),
        _ => Some(u64::MAX - rng.pick(&[0, 1, HALF_HOUR - 1, HALF_HOUR, HALF_HOUR + 1])),
    };
    Row {
        key,
        site: (!rng.one_in(5)).then(|| Claim {
            at: place(rng),
            alt_m: altitude(rng),
        }),
        generation: rng.pick(&[0, 1, 77, u32::MAX, u32::MAX - 1]),
        ids: [id(rng), id(rng)],
        run: any_run(rng),
        judged_ms,
        before: None,
        after: None,
    }
}

/// Links the rows into two chains, in any order.
fn linked(rng: &mut Rng, watch: &mut Watch) {
    let mut rows: Vec<u32> = (0..watch.rows.len() as u32).collect();
    for k in (1..rows.len()).rev() {
        rows.swap(k, rng.below(k + 1));
    }
    let (used, free) = rows.split_at(rng.below(rows.len() + 1));
    for (chain, back) in [(used, true), (free, false)] {
        for (k, row) in chain.iter().enumerate() {
            let row = &mut watch.rows[*row as usize];
            row.after = chain.get(k + 1).copied();
            row.before = if back {
                k.checked_sub(1).map(|k| chain[k])
            } else {
                // Nobody looks at it.
                let any = Some(rng.below(70) as u32);
                rng.pick(&[None, Some(0), any])
            };
        }
    }
    watch.first = used.first().copied();
    watch.last = used.last().copied();
    watch.free = free.first().copied();
}

/// A watch of any rows that passes both first questions, some words of its cells junk.
pub fn any_watch(rng: &mut Rng, rows: usize) -> Watch {
    let mut watch = Watch::fresh(rows);
    for (at, key) in keys(rng, rows).into_iter().enumerate() {
        watch.rows[at] = any_row(rng, key);
        for _ in 0..rng.below(6) {
            watch.cells[CELLS * at + rng.below(CELLS)] = rng.next() as u32;
        }
    }
    linked(rng, &mut watch);
    watch
}

/// A lent watch that passes both first questions, free rows and their cells full of junk, and the
/// times at which its rows are judged.
fn good(rng: &mut Rng, rows: usize) -> (Watch, Vec<(Key, u64, u64)>) {
    let mut watch = Watch::fresh(rows);
    let mut times = Vec::new();
    let twice = rng.one_in(4);
    for (at, key) in keys(rng, rows).into_iter().enumerate() {
        let key = if twice && at > 0 {
            watch.rows[0].key
        } else {
            key
        };
        watch.rows[at] = any_row(rng, key);
        // Half of a few rows, some of many.
        if rng.below(rows.max(8)) < 4 {
            let maker = WAYS[rng.below(WAYS.len())].1;
            let case = Case::new(rng, maker);
            watch.cells[CELLS * at..][..CELLS].copy_from_slice(&case.cells[..]);
            watch.rows[at].ids = case.held.ids;
            if !rng.one_in(3) {
                let ago = rng.pick(&[0, HALF_HOUR - 1, HALF_HOUR, EPOCH_MS]);
                watch.rows[at].judged_ms = case.now_ms.checked_sub(ago);
            }
            times.push((key, case.now_ms, case.aircraft));
        } else {
            for _ in 0..rng.below(30) {
                watch.cells[CELLS * at + rng.below(CELLS)] = rng.next() as u32;
            }
        }
    }
    linked(rng, &mut watch);
    (watch, times)
}

/// Calls on made-up rows: each judged at its time, then any calls.
fn lent<'a>(rng: &mut Rng, log: &'a mut Log) -> Script<'a> {
    let mut script = Script::new(1, log);
    while script.calls() < script.log.length / 4 {
        let few = rng.int(1, 4) as usize;
        let (watch, times) = good(rng, script.log.size.unwrap_or(few));
        let mut soup = Soup::new(rng, 2);
        soup.keys.extend(watch.rows.iter().map(|row| row.key));
        script.lend(watch);
        for (key, now_ms, aircraft) in times {
            soup.clock = now_ms;
            for _ in 0..rng.int(1, 5) {
                script.call(Call::Judging {
                    key,
                    now_ms: soup.clock,
                    aircraft,
                });
                script.call(Call::Check(key));
                let step = rng.pick(&[1, HALF_HOUR - 1, HALF_HOUR, HALF_HOUR]);
                soup.clock = soup.clock.saturating_add(step);
            }
        }
        script.look();
        for _ in 0..rng.int(10, 60) {
            soup.any(rng, &mut script);
            look(rng, &mut script, 12);
        }
    }
    script
}

/// Spoils a watch in one place; some of it is no harm.
fn spoil(rng: &mut Rng, watch: &mut Watch) {
    let rows = watch.rows.len();
    if rows == 0 {
        return;
    }
    let number = |rng: &mut Rng| match rng.below(4) {
        0 => None,
        1 => Some(rng.pick(&[rows as u32, 64, 4_095, 4_096, u32::MAX - 1])),
        _ => Some(rng.below(rows) as u32),
    };
    let at = rng.below(rows);
    match rng.below(10) {
        0 => watch.first = number(rng),
        1 => watch.last = number(rng),
        2 => watch.free = number(rng),
        3 | 4 => watch.rows[at].after = number(rng),
        5 => watch.rows[at].before = number(rng),
        6 => {
            let at_bad = bad(rng);
            watch.rows[at].site = Some(Claim {
                at: at_bad,
                alt_m: altitude(rng),
            });
        }
        7 => {
            let off_km = Some(rng.pick(&[0, 1, 4, 6, 12, 799, 801, 805, 810, 65_535, u32::MAX]));
            let run = any_run(rng).unwrap_or_default();
            watch.rows[at].run = Some(Run { off_km, ..run });
        }
        8 => {
            let cells = rng.pick(&[0, 1, CELLS * rows - 1, CELLS * rows + 1, CELLS * (rows + 1)]);
            watch.cells.resize(cells, 65_280);
        }
        // No harm.
        _ => {
            watch.rows[at] = Row {
                before: watch.rows[at].before,
                after: watch.rows[at].after,
                ..any_row(rng, [9; 32])
            }
        }
    }
}

/// Each call on watches that are spoiled, ticks too, and the digest after it: a refusal changes
/// nothing.
fn junk<'a>(rng: &mut Rng, log: &'a mut Log) -> Script<'a> {
    let mut script = Script::new(1, log);
    while script.calls() < script.log.length / 2 {
        let few = rng.int(1, 6) as usize;
        let rows = script.log.size.unwrap_or(few);
        if script.log.empty && rng.one_in(30) {
            script.lend(Watch::lent(0, rng.pick(&[0, 1, CELLS])));
            script.call(rng.pick(&[Call::Fresh, Call::Drop, Call::Check([7; 32])]));
            tick(rng, &mut script, 2);
            script.look();
        }
        let mut watch = any_watch(rng, rows);
        for _ in 0..rng.int(1, 2) {
            spoil(rng, &mut watch);
        }
        let soup = Soup::new(rng, 1);
        let key = if rng.one_in(8) {
            soup.keys[0]
        } else {
            watch.rows[rng.below(rows)].key
        };
        script.lend(watch);
        for _ in 0..rng.int(4, 12) {
            let call = match rng.below(20) {
                0 => Call::Fresh,
                1..=4 => soup.claim(rng, key),
                5..=8 => soup.position(rng, &script, key, soup.clock),
                9..=12 => soup.judging(rng, key),
                13..=15 => Call::Check(key),
                16..=17 => Call::TakeOut(key),
                _ => Call::Drop,
            };
            let refused = matches!(script.call(call), Some(Answer::No(_)));
            if tick(rng, &mut script, 6) || refused || rng.one_in(3) {
                script.look();
            }
        }
    }
    script
}
