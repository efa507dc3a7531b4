//! The original's answers, stored so that they can be replayed where no Rust is at hand: calls
//! under no excuse (the program `calls`), and rows for each of the judging's ends (the program
//! `vectors`). Where the document's whole numbers answer otherwise than the original, a call is
//! left out.

use std::collections::HashSet;
use std::fmt::Write;
use std::io;

use oracle::{CELLS, Counter, Degrees, HALF, Held, Number, Original, Row};
use siting::{GRID_CELLS, PLACES};

use crate::degrees::{self, PLACINGS, SAME};
use crate::excuses::{FAR_KM, Kind, POLAR_DEG};
use crate::fields::{Case, WAYS};
use crate::model::{self, Branch, EMPTY, GRID, packed};
use crate::place::middle;
use crate::rng::Rng;
use crate::sphere::{EDGES_KM, in_range, off_bearing};
use crate::{horizon, same, ticks};

/// Far bins, each with a placing; other placings, same places of each answer, horizons.
const FAR_BINS: usize = (PLACES - GRID_CELLS) as usize;
const PLACED: usize = 430;
const SAMES: usize = 100;
const HORIZONS: usize = 200;

/// Rows of each of the judging's ends, and exact ties of the mean beside them.
const ROWS: usize = 24;

/// Cells of a row that are not empty, at most, and those that a half which is not merged keeps.
const SPARSE: usize = 130;
const JUNK: usize = 6;

/// Writes both lists and their answers below the repository's folder; answers how many there are.
pub fn write(seed: u64, folder: &str) -> io::Result<usize> {
    let mut calls = Stored::new(calls_head(seed));
    places(&mut Rng::new(seed, "vectors place"), &mut calls);
    sames(&mut Rng::new(seed, "vectors same"), &mut calls);
    horizons(&mut Rng::new(seed, "vectors horizon"), &mut calls);
    buckets(&mut Rng::new(seed, "vectors bucket"), &mut calls);
    bits(&mut Rng::new(seed, "vectors bit"), &mut calls);
    let mut rows = Stored::new(rows_head(seed));
    sheet(&mut rows);
    judgings(&mut Rng::new(seed, "vectors judging"), &mut rows);
    calls.write(folder, ["samples/vectors.txt", "samples/vectors.out"])?;
    rows.write(folder, ["crates/vectors/stdin", "crates/vectors/stdout"])?;
    let judgings = rows.list.lines().filter(|line| line.starts_with("judging"));
    Ok(calls.answers.lines().count() + judgings.count())
}

/// A list, and what the program that replays it must print.
struct Stored {
    list: String,
    answers: String,
}

impl Stored {
    fn new(list: String) -> Self {
        let answers = String::new();
        Stored { list, answers }
    }

    /// A call and its answer.
    fn call(&mut self, call: std::fmt::Arguments, answer: std::fmt::Arguments) {
        line(&mut self.list, call);
        line(&mut self.answers, answer);
    }

    /// The end of the rows of one kind: they are counted under this name, and none differs.
    fn count(&mut self, name: &str, rows: usize) {
        line(&mut self.list, format_args!("count {name}"));
        line(
            &mut self.answers,
            format_args!("{name}: {rows} vectors, 0 differ, 0 unread"),
        );
    }

    fn write(&self, folder: &str, [list, answers]: [&str; 2]) -> io::Result<()> {
        std::fs::write(format!("{folder}/{list}"), &self.list)?;
        std::fs::write(format!("{folder}/{answers}"), &self.answers)
    }
}

/// What the list of calls is, and how it was made.
fn calls_head(seed: u64) -> String {
    format!(
        "# Answers of the unchanged Rust, stored: what each line is answered stands in vectors.out. Made in rust/ by
#   cargo run --release -p compare -- --seed {seed} --write-vectors ..
# from siting.rs of sky-commons/tally 2883b6607a, away from document 01's excused edges.
# The Rust's aircraft bit is a word with one bit; stored is which.
"
    )
}

/// What the list of rows is, and how it was made.
fn rows_head(seed: u64) -> String {
    format!(
        "# Judgings with the answers of the Rust, stored: the program `vectors` judges each row and counts the answers that differ. Made in rust/ by
#   cargo run --release -p compare -- --seed {seed} --write-vectors ..
# from siting.rs of sky-commons/tally 2883b6607a with the edit of document 02's Item 2 that rust/oracle/build.rs makes: rows for each end of the judging, few cells each, from as many ways of making them as reach it.
#
#   cell I WORD     sets cell I of the row's 3,344 (the even half's 1,600 grid cells and 72 far bins, then the odd half's); all are empty at the start and after a judging
#   judging EVEN ODD SITE ALT NOW_MS AIRCRAFT ANSWER
#                   the ids of both halves, 1 where a site is claimed, its altitude in metres; - is none
#                   ANSWER: 0 Unjudged, 1 Fits, Wrong 4 x distance + 1 (Horizon), 2 (NearField) or 3 (NothingNear)
#   count NAME      prints how many vectors there were since the last count, how many differ, and how many lines could not be read
# A line whose first word is # is a comment. Words are separated by single spaces.
"
    )
}

/// Degrees as text: six decimals, or now and then all bits; and as both sides read it.
fn written(rng: &mut Rng, at: Degrees) -> (String, Degrees) {
    if rng.one_in(8) {
        return (
            format!("{:016x} {:016x}", at.0.to_bits(), at.1.to_bits()),
            at,
        );
    }
    let text = format!("{:.6} {:.6}", at.0, at.1);
    let mut read = text.split(' ').map(|word| word.parse().expect("a float"));
    let lat = read.next().expect("two");
    (text.clone(), (lat, read.next().expect("two")))
}

/// Whether a position is under no excuse: farther from every edge that could part two placings.
fn is_clear(site: Degrees, at: Degrees) -> bool {
    if !in_range(site) || !in_range(at) || site.0.abs() > POLAR_DEG {
        return false;
    }
    let (east, north) = Original::local_km(site, at);
    let km = Original::distance_km(site, at);
    let past = |kind: Kind, off: f64| !kind.reaches(off.abs() * 1_000.0);
    let off_line = |km: f64| km - 5.0 * (km / 5.0).round();
    let off_grid = |km: f64| km.abs() - 100.0;
    if east.abs().max(north.abs()) < 100.0 {
        return past(Kind::CellEdge, off_line(east)) && past(Kind::CellEdge, off_line(north));
    }
    let bearing = Original::bearing_deg(site, at);
    let sector = off_bearing(bearing, 45.0 * (bearing / 45.0).round());
    km < FAR_KM
        && past(Kind::CellEdge, off_grid(east))
        && past(Kind::CellEdge, off_grid(north))
        && EDGES_KM.iter().all(|edge| past(Kind::BandEdge, km - edge))
        && !Kind::SectorEdge.reaches(sector.abs())
}

/// A made pair.
fn made(rng: &mut Rng, ways: &[(&str, degrees::Maker)]) -> (Degrees, Degrees) {
    let mut pairs = Vec::new();
    while pairs.is_empty() {
        let way = rng.below(ways.len());
        degrees::make(rng, ways[way].1, &mut pairs);
    }
    rng.pick(&pairs)
}

/// Placings: the middle of every far bin, then those of cells from the whole grid and made pairs.
fn places(rng: &mut Rng, calls: &mut Stored) {
    let mut counter = Counter::new();
    let mut next = 0;
    while next < FAR_BINS + PLACED {
        let (site, at) = if next < FAR_BINS {
            let site = (rng.within(60.0), rng.within(180.0));
            (site, middle(site, GRID_CELLS + next as u16))
        } else if rng.one_in(2) {
            let site = (rng.within(80.0), rng.within(180.0));
            (site, middle(site, rng.below(GRID) as u16))
        } else {
            made(rng, &PLACINGS)
        };
        let ((from, site), (to, at)) = (written(rng, site), written(rng, at));
        if !is_clear(site, at) {
            continue;
        }
        let theirs = counter.place(site, at);
        if theirs == ticks::place(site, at) {
            calls.call(
                format_args!("place {from} {to}"),
                format_args!("place {theirs}"),
            );
            next += 1;
        }
    }
}

/// Same places, as many of each answer.
fn sames(rng: &mut Rng, calls: &mut Stored) {
    let mut left = [SAMES; 2];
    while left != [0; 2] {
        let (held, claimed) = made(rng, &SAME);
        let ((from, held), (to, claimed)) = (written(rng, held), written(rng, claimed));
        if !in_range(held) || !in_range(claimed) || same::excused(held, claimed).is_some() {
            continue;
        }
        let theirs = Original::same_place(held, claimed);
        if left[usize::from(theirs)] > 0 && theirs == ticks::same_place(held, claimed) {
            left[usize::from(theirs)] -= 1;
            let answer = u8::from(theirs);
            calls.call(
                format_args!("same {from} {to}"),
                format_args!("same {answer}"),
            );
        }
    }
}

/// Horizons: each special height beside another, then made ones. A zero's sign is excused.
fn horizons(rng: &mut Rng, calls: &mut Stored) {
    let mut special = horizon::SPECIAL.into_iter();
    let mut left = HORIZONS;
    while left > 0 {
        let mut one = || {
            let made = horizon::WAYS[rng.below(horizon::WAYS.len())].1;
            made(rng)
        };
        let (antenna, aircraft) = (special.next().unwrap_or_else(&mut one), one());
        let theirs = Original::horizon_km(antenna, aircraft);
        if theirs.to_bits() != (-0.0_f64).to_bits() {
            let bits = [antenna, aircraft, theirs].map(f64::to_bits);
            let [a, b, km] = bits;
            calls.call(
                format_args!("horizon {a:016x} {b:016x}"),
                format_args!("horizon {km:016x}"),
            );
            left -= 1;
        }
    }
}

/// Altitude buckets: none, beside each end, and any.
fn buckets(rng: &mut Rng, calls: &mut Stored) {
    let none = Original::bucket(None);
    calls.call(format_args!("bucket -"), format_args!("bucket {none}"));
    let ends = [0, 500, 1_000, 126_500, 127_000, 127_500, 128_000];
    let beside = ends.iter().flat_map(|end| [end - 1, *end, end + 1]);
    let far = [i32::MIN, i32::MIN + 1, -500, i32::MAX - 1, i32::MAX];
    let made: Vec<i32> = (0..40).map(|_| rng.int(-2_000, 140_000) as i32).collect();
    for feet in beside.chain(far).chain(made) {
        let theirs = Original::bucket(Some(feet));
        calls.call(
            format_args!("bucket {feet}"),
            format_args!("bucket {theirs}"),
        );
    }
}

/// Aircraft bits: small addresses, single bits, and any of 24 or 32 bits.
fn bits(rng: &mut Rng, calls: &mut Stored) {
    let single = (2..32).map(|bit| 1 << bit);
    let made: Vec<u32> = (0..60)
        .map(|_| rng.next() as u32 >> rng.pick(&[0, 8]))
        .collect();
    for address in [0, 1, 2, 3, u32::MAX].into_iter().chain(single).chain(made) {
        let theirs = Original::aircraft_bit(address).trailing_zeros();
        calls.call(format_args!("bit {address}"), format_args!("bit {theirs}"));
    }
}

/// The sheet's P10: 60 positions in bin 0 and 15 aircraft; 59; 14 aircraft.
fn sheet(rows: &mut Stored) {
    for (positions, aircraft) in [(60, 15), (59, 15), (60, 14)] {
        let mut cells = Box::new([EMPTY; CELLS]);
        cells[GRID] = packed(positions, 255, 1);
        let held = Held {
            site: Some(None),
            ids: [Some(0), None],
        };
        let case = Case {
            held,
            cells,
            now_ms: 0,
            aircraft,
        };
        let theirs = Row::new(&case.held, &case.cells).judge(case.now_ms, case.aircraft);
        judging(&mut rows.list, &case, theirs);
    }
    rows.count("the sheet's P10", 3);
}

/// Rows for each end of the judging, from as many ways of making them as reach it with few cells.
fn judgings(rng: &mut Rng, rows: &mut Stored) {
    let mut parts = vec![Part::default(); Branch::ALL.len() + 1];
    for turn in 0.. {
        let way = turn % WAYS.len();
        let mut case = Case::new(rng, WAYS[way].1);
        thin(&mut case);
        let right = model::judge(&case.cells, &case.held, case.now_ms, case.aircraft);
        let theirs = Row::new(&case.held, &case.cells).judge(case.now_ms, case.aircraft);
        if theirs == right.number {
            let tie = right.tie.is_some();
            let at = if tie {
                Branch::ALL.len()
            } else {
                right.branch as usize
            };
            // Few ways reach some of the ends, so that the later turns ask no more for another.
            parts[at].add(&case, theirs, way, turn < 40_000);
        }
        if parts.iter().all(|part| part.rows == ROWS) {
            break;
        }
    }
    let names = Branch::ALL.iter().map(|branch| branch.name());
    for (part, name) in parts.iter().zip(names.chain(["NearField, exact ties"])) {
        rows.list.push_str(&part.text);
        rows.count(&name.replace(": ", ", "), part.rows);
    }
}

/// The rows of one end.
#[derive(Clone, Default)]
struct Part {
    text: String,
    rows: usize,
    ways: Vec<usize>,
    answers: HashSet<Number>,
}

impl Part {
    /// One more, where it is wanted: at most four of a way, and half of the rows with new answers.
    fn add(&mut self, case: &Case, theirs: Number, way: usize, choose: bool) {
        let held = case.cells.iter().filter(|word| **word != EMPTY).count();
        let often = self.ways.iter().filter(|past| **past == way).count();
        let known = theirs > 1 && self.answers.contains(&theirs);
        if self.rows == ROWS || held > SPARSE || (choose && (often >= 4 || known)) {
            return;
        }
        self.rows += 1;
        self.ways.push(way);
        self.answers.insert(theirs);
        judging(&mut self.text, case, theirs);
    }
}

/// Empties most of a half that is not merged: what is left there still must not count.
fn thin(case: &mut Case) {
    for (half, id) in case.cells.chunks_mut(HALF).zip(case.held.ids) {
        if !model::kept(id, case.now_ms) {
            let held = half.iter_mut().filter(|word| **word != EMPTY);
            held.skip(JUNK).for_each(|word| *word = EMPTY);
        }
    }
}

/// A row's cells, and its judging.
fn judging(text: &mut String, case: &Case, theirs: Number) {
    for (at, word) in case.cells.iter().enumerate() {
        if *word != EMPTY {
            line(text, format_args!("cell {at} {word}"));
        }
    }
    let word = |id: Option<u64>| id.map_or("-".to_string(), |id| id.to_string());
    let [even, odd] = case.held.ids.map(word);
    let site = word(case.held.site.map(|_| 1));
    let alt = case.held.site.flatten();
    let alt = alt.map_or("-".to_string(), |metres| metres.to_string());
    let (now_ms, aircraft) = (case.now_ms, case.aircraft);
    line(
        text,
        format_args!("judging {even} {odd} {site} {alt} {now_ms} {aircraft} {theirs}"),
    );
}

/// One more line.
fn line(text: &mut String, words: std::fmt::Arguments) {
    writeln!(text, "{words}").expect("a string grows");
}

#[cfg(test)]
mod tests {
    use super::is_clear;
    use crate::sphere::{on_plane, on_sphere};

    #[test]
    fn clear_is_away_from_edges() {
        if !oracle::FOUND {
            return;
        }
        let site = (40.0, -3.0);
        let near = |east, north| is_clear(site, on_plane(site, east, north));
        assert!(near(2.5, 2.5) && near(99.9, 0.1));
        assert!(!near(5.000_5, 2.5) && !near(2.5, -9.999_5));
        let far = |bearing, km| is_clear(site, on_sphere(site, bearing, km));
        assert!(far(10.0, 175.0) && far(44.9, 151.0));
        assert!(!far(10.0, 150.001) && !far(45.000_5, 300.5));
        assert!(!is_clear((89.5, 0.0), (89.4, 0.0)));
    }
}
