//! Reads the calls of a list as the program `calls` does: one to a line, fields separated by single
//! spaces, `#` before a comment.
//!
//! ```
//! use siting::list::{Call, Fields};
//!
//! let mut fields = Fields::of("check a1 # the first one");
//! let word = fields.text("the call")?;
//! let mut key = [0; 32];
//! key[31] = 0xA1;
//! assert_eq!(Call::read(word, &mut fields)?, Call::Check(key));
//! assert_eq!(fields.end(), Ok(()));
//! # Ok::<(), String>(())
//! ```

use std::str::{FromStr, Split};

use crate::{Key, Position, Site};

/// One of the seven calls with its arguments.
#[derive(Clone, Copy, Debug, PartialEq)]
pub enum Call {
    /// `fresh`
    Fresh,
    /// `claim KEY LAT LON ALT`, or `claim KEY -`
    Claim(Key, Option<Site>),
    /// `position KEY LAT LON FEET ADDRESS AT_MS`
    Position(Key, Position),
    /// `judging KEY NOW_MS AIRCRAFT`
    Judging {
        /// The receiver.
        key: Key,
        /// The time, milliseconds.
        now_ms: u64,
        /// The aircraft that were heard.
        aircraft: u64,
    },
    /// `check KEY`
    Check(Key),
    /// `takeout KEY`
    TakeOut(Key),
    /// `drop`
    DropOldest,
}

impl Call {
    /// The call of this word, its arguments taken from the fields; the error says what cannot be
    /// read.
    pub fn read(word: &str, f: &mut Fields) -> Result<Self, String> {
        Ok(match word {
            "fresh" => Self::Fresh,
            "drop" => Self::DropOldest,
            "check" => Self::Check(f.key()?),
            "takeout" => Self::TakeOut(f.key()?),
            "claim" => Self::Claim(f.key()?, f.site()?),
            "position" => {
                let key = f.key()?;
                let heard = Position {
                    lat: f.read("LAT", float)?,
                    lon: f.read("LON", float)?,
                    feet: f.maybe("FEET")?,
                    address: f.number("ADDRESS")?,
                    at_ms: f.number("AT_MS")?,
                };
                Self::Position(key, heard)
            }
            "judging" => Self::Judging {
                key: f.key()?,
                now_ms: f.number("NOW_MS")?,
                aircraft: f.number("AIRCRAFT")?,
            },
            word => return Err(format!("unknown call '{word}'")),
        })
    }
}

/// The fields of a line, read in turn; an error says the field's name.
pub struct Fields<'a>(Split<'a, char>);

impl<'a> Fields<'a> {
    /// Of a line, its comment left out. An empty line has one empty field.
    pub fn of(line: &'a str) -> Self {
        let text = line.split('#').next().unwrap_or("").trim_end();
        Self(text.split(' '))
    }

    /// The next field.
    pub fn text(&mut self, name: &str) -> Result<&'a str, String> {
        self.0.next().ok_or(format!("{name} missing"))
    }

    /// A field that `read` understands.
    pub fn read<T>(&mut self, name: &str, read: impl Fn(&str) -> Option<T>) -> Result<T, String> {
        let text = self.text(name)?;
        read(text).ok_or(format!("{name} is not understood"))
    }

    /// A number.
    pub fn number<T: FromStr>(&mut self, name: &str) -> Result<T, String> {
        self.read(name, |text| text.parse().ok())
    }

    /// A number or a dash.
    pub fn maybe<T: FromStr>(&mut self, name: &str) -> Result<Option<T>, String> {
        self.read(name, maybe)
    }

    /// A key.
    pub fn key(&mut self) -> Result<Key, String> {
        self.read("KEY", key)
    }

    /// A number or a dash that may be missing, which is none.
    pub fn last<T: FromStr>(&mut self, name: &str) -> Result<Option<T>, String> {
        if self.0.clone().next().is_none() {
            return Ok(None);
        }
        self.maybe(name)
    }

    /// LAT LON ALT, or a dash for no site.
    fn site(&mut self) -> Result<Option<Site>, String> {
        let lat = self.text("LAT")?;
        if lat == "-" {
            return Ok(None);
        }
        Ok(Some(Site {
            lat: float(lat).ok_or("LAT is not understood")?,
            lon: self.read("LON", float)?,
            alt_m: self.maybe("ALT")?,
        }))
    }

    /// Nothing is left.
    pub fn end(&mut self) -> Result<(), String> {
        match self.0.next() {
            Some(_) => Err("unexpected field".to_string()),
            None => Ok(()),
        }
    }
}

/// A value, or none for a dash.
pub fn maybe<T: FromStr>(text: &str) -> Option<Option<T>> {
    if text == "-" {
        return Some(None);
    }
    text.parse().ok().map(Some)
}

/// A key of up to 64 hex digits; zeros in front may be left out.
///
/// ```
/// assert_eq!(siting::list::key("b2").unwrap()[30..], [0, 0xB2]);
/// assert_eq!(siting::list::key("g"), None);
/// ```
pub fn key(text: &str) -> Option<Key> {
    if text.is_empty() || text.len() > 64 || !text.bytes().all(|b| b.is_ascii_hexdigit()) {
        return None;
    }
    let digits = format!("{text:0>64}");
    let mut key = [0; 32];
    for (at, byte) in key.iter_mut().enumerate() {
        *byte = u8::from_str_radix(&digits[2 * at..][..2], 16).ok()?;
    }
    Some(key)
}

/// A key without the zeros in front.
///
/// ```
/// assert_eq!(siting::list::short(&[0; 32]), "0");
/// ```
pub fn short(key: &Key) -> String {
    let digits = long(key);
    match digits.trim_start_matches('0') {
        "" => "0".to_string(),
        short => short.to_string(),
    }
}

/// A key's 64 digits.
pub fn long(key: &Key) -> String {
    key.iter().map(|byte| format!("{byte:02x}")).collect()
}

/// The float of 16 hex digits.
pub fn unhex(text: &str) -> Option<f64> {
    let whole = text.len() == 16 && text.bytes().all(|b| b.is_ascii_hexdigit());
    whole
        .then(|| u64::from_str_radix(text, 16).ok())?
        .map(f64::from_bits)
}

/// A float: 16 hex digits, or a decimal with a point.
pub fn float(text: &str) -> Option<f64> {
    unhex(text).or_else(|| text.parse().ok().filter(|_| text.contains('.')))
}
