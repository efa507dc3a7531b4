//! The placing of two archives side by side in one run: `BEFORE.a AFTER.a`, each with `siting_place`.
//! Both are made shared libraries, so that functions of one name do not meet, and are called in turn
//! over the same inputs; the least time of each is said. With a third word, `before` or `after`, that
//! side alone places the inputs in the grid, once: for a count of the instructions in `run`.

use std::ffi::{CString, c_char, c_int, c_void};
use std::hint::black_box;
use std::path::{Path, PathBuf};
use std::process::Command;
use std::time::Instant;

/// Pairs of a site and a position: few enough to stay in the cache.
const INPUTS: usize = 4_096;

/// Runs over all inputs in one turn of one side, and turns.
const RUNS: usize = 40;
const TURNS: usize = 100;

/// Cells of the grid.
const CELLS: u16 = 1_600;

type Placing = extern "C" fn(f64, f64, f64, f64) -> u16;
type Pair = [f64; 4];

unsafe extern "C" {
    fn dlopen(file: *const c_char, flags: c_int) -> *mut c_void;
    fn dlsym(library: *mut c_void, name: *const c_char) -> *mut c_void;
}

/// Every name bound at once, and seen by no other library.
const RTLD_NOW: c_int = 2;

/// `siting_place` of an archive.
fn placing_of(archive: &Path, name: &str) -> Placing {
    let library: PathBuf =
        std::env::temp_dir().join(format!("beside-{}-{name}.so", std::process::id()));
    let made = Command::new("cc")
        .args(["-shared", "-Wl,-Bsymbolic", "-o"])
        .arg(&library)
        .args(["-Wl,--whole-archive"])
        .arg(archive)
        .args(["-Wl,--no-whole-archive"])
        .status()
        .expect("cc is there");
    assert!(made.success(), "{} does not link", archive.display());
    let file = CString::new(library.to_str().expect("a plain path")).expect("no zero byte");
    // SAFETY: both strings end with a zero byte. The function has this type in every archive (crates/siting/include/siting.h), and
    // the library is never closed.
    let placing = unsafe {
        let opened = dlopen(file.as_ptr(), RTLD_NOW);
        assert!(!opened.is_null(), "{} does not open", library.display());
        let found = dlsym(opened, c"siting_place".as_ptr());
        assert!(
            !found.is_null(),
            "{} has no siting_place",
            archive.display()
        );
        std::mem::transmute::<*mut c_void, Placing>(found)
    };
    std::fs::remove_file(&library).expect("it was just made");
    placing
}

/// A float from `low` up to `high`, always the same ones in turn.
fn float(state: &mut u64, low: f64, high: f64) -> f64 {
    *state = state
        .wrapping_mul(6_364_136_223_846_793_005)
        .wrapping_add(1);
    low + (high - low) * ((*state >> 11) as f64 / (1u64 << 53) as f64)
}

/// Pairs whose place is in the grid, or past it.
fn pairs(placing: Placing, far: bool) -> Vec<Pair> {
    let (mut pairs, mut state) = (Vec::new(), 1);
    let reach = if far { 9.0 } else { 1.5 };
    while pairs.len() < INPUTS {
        let (lat, lon) = (
            float(&mut state, -70.0, 70.0),
            float(&mut state, -170.0, 170.0),
        );
        let (north, east) = (
            float(&mut state, -reach, reach),
            float(&mut state, -reach, reach),
        );
        if (placing(lat, lon, lat + north, lon + east) >= CELLS) == far {
            pairs.push([lat, lon, lat + north, lon + east]);
        }
    }
    pairs
}

/// All inputs once.
#[inline(never)]
fn run(placing: Placing, pairs: &[Pair]) {
    for [a, b, c, d] in pairs {
        black_box(placing(black_box(*a), *b, *c, *d));
    }
}

fn main() {
    let words: Vec<String> = std::env::args().skip(1).collect();
    let [before, after] = [0, 1].map(|at| PathBuf::from(words.get(at).expect("BEFORE.a AFTER.a")));
    let sides = [placing_of(&before, "before"), placing_of(&after, "after")];
    match words.get(2).map(String::as_str) {
        Some("before") => return run(sides[0], &pairs(sides[0], false)),
        Some("after") => return run(sides[1], &pairs(sides[0], false)),
        _ => {}
    }
    for (work, far) in [
        ("placing in the grid", false),
        ("placing past the grid", true),
    ] {
        let pairs = pairs(sides[0], far);
        for [a, b, c, d] in &pairs {
            assert_eq!(sides[0](*a, *b, *c, *d), sides[1](*a, *b, *c, *d));
        }
        let mut least = [f64::INFINITY; 2];
        for _ in 0..TURNS {
            for (side, least) in sides.iter().zip(&mut least) {
                let begun = Instant::now();
                (0..RUNS).for_each(|_| run(*side, &pairs));
                *least = least.min(begun.elapsed().as_nanos() as f64 / (RUNS * INPUTS) as f64);
            }
        }
        let [old, new] = least;
        println!(
            "{work}: before {old:.2} ns, after {new:.2} ns, ratio {:.3}",
            new / old
        );
    }
}
