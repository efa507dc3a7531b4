//! A list of calls as text, written and read, and its answers; and the list answered by the
//! document's whole numbers (`compare --replay FILE`), as our program would.

use std::fmt::Write;

use oracle::{Claim, Key, Run, State};
use siting::list::{self, Fields, float, long, maybe, short};

use crate::watch::{Answer, Call, Link, Row, Tick, Ticked, Watch};

/// A float: a decimal with a point where at most 15 digits say it exactly, else its bits.
pub fn real(x: f64) -> String {
    let text = format!("{x:?}");
    let digits = text.bytes().filter(u8::is_ascii_digit).count();
    let plain = text
        .bytes()
        .all(|b| b.is_ascii_digit() || b == b'.' || b == b'-');
    if plain && digits <= 15 && x != 0.0 {
        text
    } else {
        format!("{:016x}", x.to_bits())
    }
}

/// Something or a dash.
fn or_dash<T: ToString>(value: Option<T>) -> String {
    value.map_or("-".to_string(), |value| value.to_string())
}

/// What found a site wrong, by the last two bits of a judgment's number.
const BY: [&str; 4] = ["", "horizon", "nearfield", "nothingnear"];

/// The refusals.
const NO: [&str; 10] = [
    "", "no 1", "no 2", "no 3", "no 4", "no 5", "no 6", "no 7", "no 8", "no 9",
];

impl Call {
    /// The call's word.
    pub fn word(&self) -> &'static str {
        match self {
            Self::Fresh => "fresh",
            Self::Claim(..) => "claim",
            Self::Position { .. } => "position",
            Self::Judging { .. } => "judging",
            Self::Check(_) => "check",
            Self::TakeOut(_) => "takeout",
            Self::Drop => "drop",
        }
    }

    /// The key that it names.
    pub fn key(&self) -> Option<Key> {
        match self {
            Self::Fresh | Self::Drop => None,
            Self::Claim(key, _)
            | Self::Position { key, .. }
            | Self::Judging { key, .. }
            | Self::Check(key)
            | Self::TakeOut(key) => Some(*key),
        }
    }

    /// The call's line.
    pub fn line(&self) -> String {
        let word = self.word();
        match self {
            Self::Fresh | Self::Drop => word.to_string(),
            Self::Claim(key, None) => format!("{word} {} -", short(key)),
            Self::Claim(key, Some(site)) => format!(
                "{word} {} {} {} {}",
                short(key),
                real(site.at.0),
                real(site.at.1),
                or_dash(site.alt_m)
            ),
            Self::Position {
                key,
                at,
                feet,
                address,
                at_ms,
            } => format!(
                "{word} {} {} {} {} {address} {at_ms}",
                short(key),
                real(at.0),
                real(at.1),
                or_dash(*feet)
            ),
            Self::Judging {
                key,
                now_ms,
                aircraft,
            } => format!("{word} {} {now_ms} {aircraft}", short(key)),
            Self::Check(key) | Self::TakeOut(key) => format!("{word} {}", short(key)),
        }
    }
}

impl Answer {
    /// What kind of answer it is.
    pub fn kind(&self) -> &'static str {
        match self {
            Self::Done | Self::Claimed(_, None) | Self::Freed(_) => "ok",
            Self::Claimed(_, Some(_)) => "pushes",
            Self::Judged(0) | Self::Checked(State::Unjudged) => "unjudged",
            Self::Judged(1) | Self::Checked(State::Fits) => "fits",
            Self::Judged(number) => BY[*number as usize % 4],
            Self::Checked(State::Wrong(_)) => "wrong",
            Self::No(number) => NO[usize::from(*number) % NO.len()],
        }
    }

    /// The key that it carries.
    pub fn key(&self) -> Option<Key> {
        match self {
            Self::Claimed(_, key) => *key,
            Self::Freed(key) => Some(*key),
            _ => None,
        }
    }

    /// The answer's line.
    pub fn line(&self) -> String {
        match self {
            Self::Done => "ok".to_string(),
            Self::Claimed(generation, pushed) => {
                format!("ok {generation} {}", or_dash(pushed.map(|key| long(&key))))
            }
            Self::Judged(0) | Self::Checked(State::Unjudged) => "ok unjudged".to_string(),
            Self::Judged(1) | Self::Checked(State::Fits) => "ok fits".to_string(),
            Self::Judged(number) => {
                let by = BY[*number as usize % 4];
                format!("ok wrong {} {by}", number / 4)
            }
            Self::Checked(State::Wrong(off)) => format!("ok wrong {off}"),
            Self::Freed(key) => format!("ok {}", long(key)),
            Self::No(number) => format!("no {number}"),
        }
    }
}

impl Tick {
    /// The tick's line.
    pub fn line(&self) -> String {
        format!("turn {} {} {}", self.next, self.k, self.room)
    }
}

/// What kind of answer a tick has: keys are given, none of the rows is used, or it is refused.
pub fn ticked_kind(ticked: &Ticked) -> &'static str {
    match ticked {
        Ok((keys, _)) if keys.is_empty() => "none",
        Ok(_) => "ok",
        Err(number) => NO[usize::from(*number) % NO.len()],
    }
}

/// The line of a tick's answer.
pub fn ticked_line(ticked: &Ticked) -> String {
    match ticked {
        Ok((keys, next)) => {
            let given: String = keys.iter().map(|key| format!(" {}", long(key))).collect();
            format!("ok {} {next}{given}", keys.len())
        }
        Err(number) => format!("no {number}"),
    }
}

/// Whether a line is the answer that is wanted: a key's zeros in front may be left out, and of an
/// error only the line's number is wanted.
pub fn answers(want: &str, got: &str) -> bool {
    if want == got || (want.starts_with("error ") && got.starts_with(want)) {
        return true;
    }
    let (want, got) = (want.rsplit_once(' '), got.rsplit_once(' '));
    want.zip(got).is_some_and(|(want, got)| {
        want.0 == got.0
            && want.1.len() == 64
            && want.1.trim_start_matches('0') == got.1.trim_start_matches('0')
    })
}

/// A watch as the lines that lend it.
pub fn lend(watch: &Watch) -> String {
    let mut text = format!("lend {} {}\n", watch.rows.len(), watch.cells.len());
    for (at, row) in watch.rows.iter().enumerate() {
        if *row == Row::UNMADE {
            continue;
        }
        let site = row.site.map(|site| {
            let (lat, lon) = (real(site.at.0), real(site.at.1));
            format!("{lat},{lon},{}", or_dash(site.alt_m))
        });
        let run = row.run.map(|run| {
            let off = or_dash(run.off_km);
            let moved = u8::from(run.moved);
            format!("{},{},{},{off},{moved}", run.last, run.wrongs, run.others)
        });
        let _ = writeln!(
            text,
            "row {at} {} {} {} {} {} {} {} {} {}",
            short(&row.key),
            or_dash(site),
            row.generation,
            or_dash(row.ids[0]),
            or_dash(row.ids[1]),
            or_dash(run),
            or_dash(row.before),
            or_dash(row.after),
            or_dash(row.judged_ms)
        );
    }
    for (at, word) in watch.cells.iter().enumerate() {
        if *word != crate::model::EMPTY {
            let _ = writeln!(text, "cell {at} {word}");
        }
    }
    let [first, last, free] = [watch.first, watch.last, watch.free].map(or_dash);
    text + &format!("ends {first} {last} {free}\n")
}

/// LAT,LON,ALT, or none.
fn site(text: &str) -> Option<Option<Claim>> {
    if text == "-" {
        return Some(None);
    }
    let parts: Vec<&str> = text.split(',').collect();
    let [lat, lon, alt] = parts[..] else {
        return None;
    };
    let at = (float(lat)?, float(lon)?);
    let alt_m = maybe(alt)?;
    Some(Some(Claim { at, alt_m }))
}

/// LAST,WRONGS,OTHERS,DISTANCE,MOVED, or none.
fn run(text: &str) -> Option<Option<Run>> {
    if text == "-" {
        return Some(None);
    }
    let parts: Vec<&str> = text.split(',').collect();
    let [last, wrongs, others, off, moved] = parts[..] else {
        return None;
    };
    Some(Some(Run {
        last: last.parse().ok().filter(|last| *last <= 2)?,
        wrongs: wrongs.parse().ok()?,
        others: others.parse().ok()?,
        off_km: maybe(off)?,
        moved: moved.parse::<u8>().ok().filter(|moved| *moved <= 1)? == 1,
    }))
}

/// What a line asks for.
enum Line {
    Nothing,
    Call(Call),
    Tick(Tick),
    Digest,
    Watch(usize),
    Lend(usize, usize),
    Row(usize, Row),
    Cell(usize, u32),
    Ends([Link; 3]),
}

/// A line's fields.
fn fields(f: &mut Fields) -> Result<Line, String> {
    let call = match f.text("the call")? {
        "" => return Ok(Line::Nothing),
        "digest" => return Ok(Line::Digest),
        "turn" => {
            return Ok(Line::Tick(Tick {
                next: f.number("NEXT")?,
                k: f.number("K")?,
                room: f.number("ROOM")?,
            }));
        }
        "watch" => return Ok(Line::Watch(f.number("C")?)),
        "lend" => return Ok(Line::Lend(f.number("C")?, f.number("N")?)),
        "row" => {
            let at = f.number("I")?;
            let row = Row {
                key: f.key()?,
                site: f.read("SITE", site)?,
                generation: f.number("GEN")?,
                ids: [f.maybe("EVEN")?, f.maybe("ODD")?],
                run: f.read("VERDICT", run)?,
                before: f.maybe("BEFORE")?,
                after: f.maybe("AFTER")?,
                judged_ms: f.last("NOW")?,
            };
            return Ok(Line::Row(at, row));
        }
        "cell" => return Ok(Line::Cell(f.number("I")?, f.number("WORD")?)),
        "ends" => {
            let ends = [f.maybe("FIRST")?, f.maybe("LAST")?, f.maybe("FREE")?];
            return Ok(Line::Ends(ends));
        }
        word => list::Call::read(word, f)?,
    };
    Ok(Line::Call(call.into()))
}

impl From<list::Call> for Call {
    fn from(call: list::Call) -> Self {
        match call {
            list::Call::Fresh => Self::Fresh,
            list::Call::DropOldest => Self::Drop,
            list::Call::Check(key) => Self::Check(key),
            list::Call::TakeOut(key) => Self::TakeOut(key),
            list::Call::Claim(key, site) => Self::Claim(
                key,
                site.map(|site| Claim {
                    at: (site.lat, site.lon),
                    alt_m: site.alt_m,
                }),
            ),
            list::Call::Position(key, heard) => Self::Position {
                key,
                at: (heard.lat, heard.lon),
                feet: heard.feet,
                address: heard.address,
                at_ms: heard.at_ms,
            },
            list::Call::Judging {
                key,
                now_ms,
                aircraft,
            } => Self::Judging {
                key,
                now_ms,
                aircraft,
            },
        }
    }
}

/// What a list is answered by.
pub trait Table {
    /// C fresh rows.
    fn fresh(rows: usize) -> Self;
    /// Rows in no chain, and any number of empty cells.
    fn lent(rows: usize, cells: usize) -> Self;
    fn call(&mut self, call: &Call) -> Answer;
    fn tick(&mut self, tick: &Tick) -> Ticked;
    fn digest(&self) -> u64;
    /// Sets a row or a cell; false where it is not there.
    fn row(&mut self, at: usize, row: Row) -> bool;
    fn cell(&mut self, at: usize, word: u32) -> bool;
    fn ends(&mut self, ends: [Link; 3]);
}

impl Table for Watch {
    fn fresh(rows: usize) -> Self {
        Watch::fresh(rows)
    }

    fn lent(rows: usize, cells: usize) -> Self {
        Watch::lent(rows, cells)
    }

    fn call(&mut self, call: &Call) -> Answer {
        self.answer(call, None)
    }

    fn tick(&mut self, tick: &Tick) -> Ticked {
        Watch::tick(self, tick)
    }

    fn digest(&self) -> u64 {
        Watch::digest(self)
    }

    fn row(&mut self, at: usize, row: Row) -> bool {
        self.rows.get_mut(at).is_some_and(|held| {
            *held = row;
            true
        })
    }

    fn cell(&mut self, at: usize, word: u32) -> bool {
        self.cells.get_mut(at).is_some_and(|held| {
            *held = word;
            true
        })
    }

    fn ends(&mut self, ends: [Link; 3]) {
        [self.first, self.last, self.free] = ends;
    }
}

/// Answers a line, if it has an answer; the error says what cannot be read.
fn answer<T: Table>(watch: &mut T, line: &str) -> Result<Option<String>, String> {
    let mut rest = Fields::of(line);
    let line = fields(&mut rest)?;
    rest.end()?;
    match line {
        Line::Nothing => {}
        Line::Call(call) => return Ok(Some(watch.call(&call).line())),
        Line::Tick(tick) => return Ok(Some(ticked_line(&watch.tick(&tick)))),
        Line::Digest => return Ok(Some(format!("digest {:016x}", watch.digest()))),
        Line::Watch(rows) | Line::Lend(rows, _) if rows > 4_096 => {
            return Err("C is above 4096".to_string());
        }
        Line::Watch(rows) => *watch = T::fresh(rows),
        Line::Lend(rows, cells) => *watch = T::lent(rows, cells),
        Line::Row(at, row) if !watch.row(at, row) => return Err("I is past the rows".to_string()),
        Line::Cell(at, word) if !watch.cell(at, word) => {
            return Err("I is past the cells".to_string());
        }
        Line::Row(..) | Line::Cell(..) => {}
        Line::Ends(ends) => watch.ends(ends),
    }
    Ok(None)
}

/// Answers a list of calls by the whole numbers, a line each.
pub fn replay(list: &str) -> String {
    replay_by::<Watch>(list)
}

/// Answers a list of calls by any table, a line each.
pub fn replay_by<T: Table>(list: &str) -> String {
    let mut watch = T::fresh(1);
    let mut out = String::new();
    for (at, line) in list.lines().enumerate() {
        let said = answer(&mut watch, line)
            .unwrap_or_else(|wrong| Some(format!("error {}: {wrong}", at + 1)));
        out.extend(said.map(|said| said + "\n"));
    }
    out
}

/// Lines that cannot be read: a field missing, one too many, one that is no key or no number, a
/// number past its type, a row that is not there.
pub const UNREADABLE: [&str; 33] = [
    "banana 1 2",
    "claim",
    "claim 12",
    "claim 12 1.0 2.0",
    "claim 12 1.0 north -",
    "claim 12 1.0 2.0 2147483648",
    "claim 12 - -",
    "claim zz 1.0 2.0 -",
    "claim 00000000000000000000000000000000000000000000000000000000000000001 -",
    "position 1 1.0 2.0 - 1",
    "position 1 1.0 2.0 - 1 0 0",
    "position 1 1.0 2.0 - 4294967296 0",
    "position 1 1.0 2.0 - 1 18446744073709551616",
    "position 1 1.0 2.0 -2147483649 1 0",
    "position 1 1.0 2.0 - -1 0",
    "judging 1 5",
    "judging 1 -5 20",
    "judging 1 5 20 1",
    "check",
    "check 1 2",
    "takeout",
    "drop 1",
    "fresh 1",
    "turn",
    "turn 0 1",
    "turn 0 x 1",
    "turn 4294967296 1 1",
    "turn 0 1 1 1",
    "digest 1",
    "watch",
    "watch 4097",
    "row 4096 1 - 0 - - - - -",
    "cell 99999999 0",
];

#[cfg(test)]
mod tests {
    use oracle::CELLS;

    use super::*;

    /// P9, P7 and each refusal that a fresh watch can give, as text.
    #[test]
    fn a_short_list_is_answered() {
        let list = "watch 2\nclaim a 51.5 -0.25 -\nclaim b -\nposition a 51.5 -0.25 1200 77 0 # counted\n\
                    claim c 51.5 -0.25 12\ncheck b\ntakeout c\nposition a 51.5 -0.25 - 77 86400000\n\
                    position a 51.5 -0.25 - 77 43199999\nposition a 51.5 -200.0 - 77 43199999\ncheck a\n\
                    judging a 86400000 20\ncheck a\nclaim b -\nposition b 1.0 1.0 - 1 1\ndrop\ndrop\ndrop\nbanana\n";
        let (a, b, c) = (
            format!("{:0>64}", "a"),
            format!("{:0>64}", "b"),
            format!("{:0>64}", "c"),
        );
        let want = format!(
            "ok 1 -\nok 0 -\nok\nok 1 {b}\nno 3\nok {c}\nok\nno 6\nno 4\nno 7\nok unjudged\nok unjudged\nok 0 -\n\
             no 5\nok {a}\nok {b}\nno 3\nerror 19: unknown call 'banana'\n"
        );
        assert_eq!(replay(list), want);
    }

    #[test]
    fn a_lent_watch_comes_back() {
        let mut watch = Watch::fresh(3);
        watch.answer(
            &Call::Claim(
                [7; 32],
                Some(Claim {
                    at: (1.25, -0.0),
                    alt_m: Some(-3),
                }),
            ),
            None,
        );
        watch.rows[1].run = Some(Run {
            last: 2,
            wrongs: 255,
            others: 0,
            off_km: Some(800),
            moved: true,
        });
        watch.rows[2].ids = [Some(u64::MAX), None];
        watch.cells[CELLS + 5] = 4_294_967_295;
        let text = format!("{}digest\n", lend(&watch));
        assert_eq!(replay(&text), format!("digest {:016x}\n", watch.digest()));
    }

    /// No unreadable line is read, and none changes the watch.
    #[test]
    fn what_is_unreadable_is_an_error() {
        let list = format!("claim 1 1.0 2.0 -\n{}\ndigest\n", UNREADABLE.join("\n"));
        let out = replay(&list);
        for (at, line) in out.lines().skip(1).take(UNREADABLE.len()).enumerate() {
            assert!(answers(&format!("error {}: ", at + 2), line), "{line}");
        }
        let want = replay("claim 1 1.0 2.0 -\ndigest\n");
        assert_eq!(out.lines().last(), want.lines().last());
    }

    #[test]
    fn floats_come_back() {
        for x in [
            0.0,
            -0.0,
            51.4775,
            -0.5,
            1e-7,
            1e300,
            f64::NAN,
            0.1 + 0.2,
            180.0,
            -90.0,
        ] {
            assert_eq!(float(&real(x)).map(f64::to_bits), Some(x.to_bits()), "{x}");
        }
        assert_eq!(real(51.4775), "51.4775");
        assert_eq!(real(0.0), "0000000000000000");
    }

    #[test]
    fn an_answer_may_leave_a_keys_zeros_out() {
        let long = format!("ok 3 {:0>64}", "a0");
        assert!(answers(&long, &long) && answers(&long, "ok 3 a0"));
        assert!(
            !answers(&long, "ok 2 a0") && !answers(&long, "ok 3 0a") && !answers(&long, "ok 3 -")
        );
        assert!(!answers("ok 10 -", "ok 010 -") && !answers("ok", "no 3"));
    }
}
