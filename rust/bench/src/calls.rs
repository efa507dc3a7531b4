//! The calls over a watch of C rows, all held: through the crate, by the C function alone, the
//! original's parts, and one plain pass over rows of the same size, since question 2 makes every
//! call look at every row.

use std::cell::RefCell;
use std::hint::black_box;
use std::mem::offset_of;

use oracle::{Claim, Key, Relay};
use siting::{Position, ROW_WORDS, Row, Site, Watch, raw, words_of};

use crate::Bench;

/// The sizes that are timed.
const SIZES: [usize; 4] = [1, 64, 1_024, 4_096];

/// A time of the day that the positions were heard on.
const AT_MS: u64 = 1_772_432_251_932;

/// The site that all claim.
const SITE: Site = Site {
    lat: 51.4775,
    lon: -0.4614,
    alt_m: Some(40),
};

/// The same for the original.
const CLAIM: Claim = Claim {
    at: (SITE.lat, SITE.lon),
    alt_m: SITE.alt_m,
};

/// The heads of the table: the ratios are the first side's time to each other's.
pub const HEADS: [&str; 4] = [
    "through the crate",
    "the C function",
    "the Rust",
    "a plain pass",
];

/// The same receivers for each side, and the one that is asked for: in the middle of the order.
pub struct Held {
    key: Key,
    /// The crate's, and the C functions'.
    watch: RefCell<Watch>,
    lent: RefCell<Watch>,
    theirs: RefCell<Relay>,
}

/// The key of receiver number `at`.
fn key(at: usize) -> Key {
    let mut key = [0; 32];
    key[..8].copy_from_slice(&(at as u64).to_le_bytes());
    key[24..].copy_from_slice(
        &(at as u64)
            .wrapping_mul(0x9E37_79B9_7F4A_7C15)
            .to_le_bytes(),
    );
    key
}

/// Position number `at` of a receiver's morning.
fn heard(at: usize) -> Position {
    let mixed = (at as u32).wrapping_mul(0x9E37_79B1);
    Position {
        lat: 51.2 + f64::from(mixed >> 20) / 4_096.0 * 0.6,
        lon: -0.9 + f64::from((mixed >> 8) & 4_095) / 4_096.0,
        feet: Some((mixed >> 17) as i32),
        address: mixed,
        at_ms: AT_MS,
    }
}

/// A position told to the original.
fn told(relay: &mut Relay, key: Key, p: &Position) -> Result<(), u8> {
    relay.position(key, (p.lat, p.lon), p.feet, p.address, p.at_ms)
}

/// A judging by the original.
fn judged(relay: &mut Relay, key: Key) {
    let number = relay.judge(key, AT_MS, 20).expect("held");
    relay.judged(key, black_box(number));
}

impl Held {
    /// `rows` receivers; the one that is asked for has heard a morning and was judged.
    fn new(rows: usize) -> Self {
        let asked = key(rows / 2);
        let mut watch = Watch::new(rows).expect("1 to 4,096 rows");
        let mut theirs = Relay::new(rows);
        for at in 0..rows {
            watch.claim(&key(at), Some(SITE)).expect("there is room");
            theirs.claim(key(at), Some(CLAIM));
        }
        for at in 0..400 {
            watch.position(&asked, &heard(at)).expect("held");
            assert_eq!(told(&mut theirs, asked, &heard(at)), Ok(()));
        }
        watch.judging(&asked, AT_MS, 20).expect("held");
        judged(&mut theirs, asked);
        Self {
            key: asked,
            lent: RefCell::new(watch.clone()),
            watch: RefCell::new(watch),
            theirs: RefCell::new(theirs),
        }
    }

    /// One for each size.
    pub fn all() -> Vec<Self> {
        SIZES.map(Self::new).into()
    }

    /// A side that works on the crate's watch.
    fn crates<'a, T>(&'a self, call: impl Fn(&mut Watch) -> T + 'a) -> Box<dyn FnMut() + 'a> {
        Box::new(move || {
            black_box(call(&mut self.watch.borrow_mut()));
        })
    }

    /// A side that works on the original.
    fn rusts<'a, T>(&'a self, call: impl Fn(&mut Relay) -> T + 'a) -> Box<dyn FnMut() + 'a> {
        Box::new(move || {
            black_box(call(&mut self.theirs.borrow_mut()));
        })
    }

    /// Clears the clock of the asked row's last judging, so that each judging is accepted and looks
    /// at the same halves.
    fn unjudge(&self, watch: &RefCell<Watch>) {
        let mut watch = watch.borrow_mut();
        let row = watch.rows.len() / ROW_WORDS / 2;
        let clock = ROW_WORDS * row + offset_of!(Row, has_judged_ms) / size_of::<u64>();
        watch.rows[clock..clock + 2].fill(0);
    }

    /// One plain pass over all numbers of the rows: a sum.
    fn pass(&self) -> Box<dyn FnMut() + '_> {
        self.crates(|watch| {
            let rows = black_box(&watch.rows).iter();
            rows.fold(0, |sum: u64, word| sum.wrapping_add(*word))
        })
    }
}

/// A side that makes these calls by the C functions with no wrapper; `answer` has the numbers of
/// the call before.
macro_rules! c {
    ($held:expr, $answer:ident, $($name:ident($($argument:expr),*)),+) => {
        Box::new(move || {
            let Watch { rows, cells, ends } = &mut *$held.lent.borrow_mut();
            let mut $answer = [0; 9];
            $(
                // SAFETY: pointers and counts are those of exclusive borrows that outlive the call.
                unsafe {
                    raw::$name(
                        rows.as_mut_ptr(),
                        rows.len(),
                        cells.as_mut_ptr(),
                        cells.len(),
                        ends,
                        &mut $answer
                        $(, $argument)*
                    );
                }
                assert_ne!(black_box($answer)[0], 0);
            )+
        })
    };
}

/// One call on every side.
type Sides<'a> = Vec<Box<dyn FnMut() + 'a>>;

/// A call's name and its sides.
type Named<'a> = (&'static str, Sides<'a>);

/// The groups of calls, each measured once those before it are.
pub const GROUPS: [fn(&Held) -> Vec<Named<'_>>; 3] = [steady, freeing, fresh];

/// The calls that leave the watch's receivers as they are.
fn steady(held: &Held) -> Vec<Named<'_>> {
    let (p, key, words) = (heard(7), held.key, words_of(&held.key));
    let feet = p.feet.unwrap_or(0);
    let (lat, lon, alt_m) = (SITE.lat, SITE.lon, CLAIM.alt_m.unwrap_or(0));
    let position: Sides = vec![
        held.crates(move |watch| watch.position(&key, &p).expect("held")),
        c!(
            held,
            answer,
            siting_position(&words, p.lat, p.lon, 1, feet, p.address, p.at_ms)
        ),
        held.rusts(move |relay| told(relay, key, &p).expect("held")),
        held.pass(),
    ];
    let mut by_crate = held.crates(move |watch| watch.judging(&key, AT_MS, 20).expect("held"));
    let mut by_c: Box<dyn FnMut()> = c!(held, answer, siting_judging(&words, AT_MS, 20));
    let judging: Sides = vec![
        Box::new(move || {
            held.unjudge(&held.watch);
            by_crate();
        }),
        Box::new(move || {
            held.unjudge(&held.lent);
            by_c();
        }),
        held.rusts(move |relay| judged(relay, key)),
        held.pass(),
    ];
    let check: Sides = vec![
        held.crates(move |watch| watch.check(&key).expect("judged")),
        c!(held, answer, siting_check(&words)),
        held.rusts(move |relay| relay.check(key).expect("judged")),
        held.pass(),
    ];
    let claim: Sides = vec![
        held.crates(move |watch| watch.claim(&key, Some(SITE)).expect("held")),
        c!(held, answer, siting_claim(&words, 1, lat, lon, 1, alt_m)),
        held.rusts(move |relay| relay.claim(key, Some(CLAIM))),
        held.pass(),
    ];
    vec![
        ("position", position),
        ("judging", judging),
        ("check", check),
        ("claim of the same site", claim),
    ]
}

/// The calls that free rows, each with the claim that brings the receiver back.
fn freeing(held: &Held) -> Vec<Named<'_>> {
    let (key, words) = (self::key(0), words_of(&self::key(0)));
    let (lat, lon, alt_m) = (SITE.lat, SITE.lon, CLAIM.alt_m.unwrap_or(0));
    let take_out: Sides = vec![
        held.crates(move |watch| {
            watch.take_out(&key).expect("held");
            watch.claim(&key, Some(SITE)).expect("there is room")
        }),
        c!(
            held,
            answer,
            siting_take_out(&words),
            siting_claim(&words, 1, lat, lon, 1, alt_m)
        ),
        held.rusts(move |relay| {
            relay.take_out(key).expect("held");
            relay.claim(key, Some(CLAIM))
        }),
        held.pass(),
    ];
    let drop_oldest: Sides = vec![
        held.crates(|watch| {
            let key = watch.drop_oldest().expect("held");
            watch.claim(&key, Some(SITE)).expect("there is room")
        }),
        c!(
            held,
            answer,
            siting_drop_oldest(),
            siting_claim(
                &[answer[5], answer[6], answer[7], answer[8]],
                1,
                lat,
                lon,
                1,
                alt_m
            )
        ),
        held.rusts(|relay| {
            let key = relay.drop_oldest().expect("held");
            relay.claim(key, Some(CLAIM))
        }),
        held.pass(),
    ];
    vec![
        ("take-out and claim", take_out),
        ("drop-oldest and claim", drop_oldest),
    ]
}

/// Fresh, which empties the watch.
fn fresh(held: &Held) -> Vec<Named<'_>> {
    let fresh: Sides = vec![
        held.crates(|watch| watch.fresh().expect("the sizes fit")),
        c!(held, answer, siting_fresh()),
    ];
    vec![("fresh", fresh)]
}

/// The rows of the table for one size and one group of calls.
pub fn benches<'a>(held: &'a Held, group: fn(&Held) -> Vec<Named<'_>>) -> Vec<Bench<'a>> {
    let rows = held.watch.borrow().rows.len() / siting::ROW_WORDS;
    let named = group(held).into_iter().map(|(call, sides)| Bench {
        name: format!("{call}, {rows} rows"),
        calls: 1,
        sides,
    });
    named.collect()
}
