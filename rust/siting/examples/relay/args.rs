//! The command line.

use siting::{Key, list};

/// How it is called.
pub const USAGE: &str = "relay [FILE] [--generate] [--seed N] [--picture KEY SVG]
  FILE               a day of calls, one a line, as the program `calls` reads it (samples/day.txt)
  --generate         makes up a day of eight receivers in place of FILE, one of them 60 km off
  --seed N           of the day that is made up (1)
  --picture KEY SVG  draws this receiver's cells into the file SVG; without it the first receiver that is
                     held wrong, into target/relay.svg";

/// The repository's root.
const ROOT: &str = concat!(env!("CARGO_MANIFEST_DIR"), "/../..");

/// What the command line asks for.
pub struct Args {
    pub file: String,
    pub generate: bool,
    pub seed: u64,
    /// The receiver to draw; none for the first that is held wrong.
    pub picture: Option<Key>,
    /// Where it is drawn.
    pub svg: String,
}

/// Reads the command line: none where help is asked for; the error says what is wrong.
pub fn parse(mut words: impl Iterator<Item = String>) -> Result<Option<Args>, String> {
    let mut args = Args {
        file: format!("{ROOT}/samples/day.txt"),
        generate: false,
        seed: 1,
        picture: None,
        svg: format!("{ROOT}/target/relay.svg"),
    };
    while let Some(word) = words.next() {
        let mut value = |what: &str| words.next().ok_or(format!("{word}: {what} is missing"));
        match word.as_str() {
            "--help" | "-h" => return Ok(None),
            "--generate" => args.generate = true,
            "--seed" => {
                let text = value("a number")?;
                args.seed = text
                    .parse()
                    .map_err(|_| format!("--seed: {text} is no whole number"))?;
            }
            "--picture" => {
                let text = value("a key")?;
                let key = list::key(&text).ok_or(format!("--picture: {text} is no key"))?;
                args.picture = Some(key);
                args.svg = value("a file")?;
            }
            option if option.starts_with('-') => return Err(format!("{option}: not known")),
            _ => args.file = word,
        }
    }
    Ok(Some(args))
}
