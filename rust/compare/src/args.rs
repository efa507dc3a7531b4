//! The command line.

use siting::list::unhex;

/// The names of the checks, in the order in which they run.
pub const CHECKS: [&str; 11] = [
    "place",
    "coverage",
    "same",
    "horizon",
    "range",
    "judge",
    "lists",
    "full",
    "stored",
    "turns",
    "endurance",
];

/// What the command line asks for.
#[derive(Debug, PartialEq)]
pub struct Args {
    /// Of all random numbers; printed.
    pub seed: u64,
    /// Inputs of each check but the judging.
    pub count: u64,
    /// Judgings aimed at each branch, at least.
    pub judgings: u64,
    /// Calls of the lists, at least.
    pub calls: u64,
    /// Calls of the lists on 4,096 rows, at least.
    pub full: u64,
    /// Ticks of the turn keeper, at least.
    pub ticks: u64,
    /// Calls of the endurance, and the seconds after which it ends all the same; 0 for no end.
    pub endurance: u64,
    pub seconds: u64,
    /// The checks to run.
    pub only: Vec<String>,
    /// A skipped check counts as failed.
    pub all: bool,
    /// One input to show in place of the checks: a check's name and its floats.
    pub input: Option<(String, Vec<f64>)>,
    /// A file to write the original's answers to in place of the checks.
    pub write_vectors: Option<String>,
    /// A list of calls to answer by the whole numbers, in place of the checks; `-` is standard
    /// input.
    pub replay: Option<String>,
    /// A folder to write the stored lists into, in place of the checks.
    pub store: Option<String>,
}

/// How it is called.
pub const USAGE: &str =
    "compare [--seed N] [--count N] [--judgings N] [--calls N] [--full N] [--ticks N] [--endurance N] [--seconds N] [--only CHECK,CHECK.. | --except CHECK,CHECK..] [--all]
        compare --input place|same|horizon BITS..
        compare [--seed N] --write-vectors FOLDER
        compare --replay FILE
        compare --store FOLDER
  --seed N       seed of the random inputs (1)
  --count N      inputs of each of place, same, horizon and range (1,000,000)
  --judgings N   judgings that reach each branch, at least (1,000)
  --calls N      calls in the lists, at least (250,000)
  --full N       calls in the lists on 4,096 rows, at least (8,000)
  --ticks N      ticks of the turn keeper, at least (50,000)
  --endurance N  random calls on random watches (200,000)
  --seconds N    the endurance ends after so many seconds at the latest
  --only LIST    of place, coverage, same, horizon, range, judge, lists, full, stored, turns, endurance
  --except LIST  all checks but these
  --all          a check that is skipped counts as failed
  --input ..     shows both answers to one input, its floats as 16 hex digits each, as a failure prints them
  --write-vectors FOLDER writes the stored answers of the original below the repository's folder: samples/vectors and what the program `vectors` replays
  --replay FILE  answers a list of calls by the document's whole numbers (- is standard input)
  --store FOLDER writes the stored lists, NAME.txt, and the original's answers to them, NAME.out";

/// Reads the command line; the error says what is wrong with it.
pub fn parse(words: impl Iterator<Item = String>) -> Result<Args, String> {
    let mut args = Args {
        seed: 1,
        count: 1_000_000,
        judgings: 1_000,
        calls: 250_000,
        full: 8_000,
        ticks: 50_000,
        endurance: 200_000,
        seconds: 0,
        only: CHECKS.map(String::from).to_vec(),
        all: false,
        input: None,
        write_vectors: None,
        replay: None,
        store: None,
    };
    let mut words = words;
    while let Some(word) = words.next() {
        if word == "--all" {
            args.all = true;
            continue;
        }
        let value = words.next().ok_or(format!("{word}: a value is missing"))?;
        let number = || {
            let digits = value.replace(['_', ','], "");
            let whole: Result<u64, _> = digits.parse();
            whole.map_err(|_| format!("{word}: {value} is no whole number"))
        };
        match word.as_str() {
            "--seed" => args.seed = number()?,
            "--count" => args.count = number()?,
            "--judgings" => args.judgings = number()?,
            "--write-vectors" => args.write_vectors = Some(value),
            "--calls" => args.calls = number()?,
            "--full" => args.full = number()?,
            "--ticks" => args.ticks = number()?,
            "--endurance" => args.endurance = number()?,
            "--seconds" => args.seconds = number()?,
            "--replay" => args.replay = Some(value),
            "--store" => args.store = Some(value),
            "--input" => {
                let bits: Option<Vec<f64>> = words.by_ref().map(|word| unhex(&word)).collect();
                let floats = match value.as_str() {
                    "place" | "same" => 4,
                    "horizon" => 2,
                    _ => return Err(format!("--input: not for {value}")),
                };
                let bits = bits.filter(|bits| bits.len() == floats);
                let bits =
                    bits.ok_or(format!("--input {value}: {floats} floats of 16 hex digits"))?;
                args.input = Some((value, bits));
            }
            "--only" | "--except" => {
                let named: Vec<&str> = value.split(',').collect();
                if let Some(name) = named.iter().find(|name| !CHECKS.contains(name)) {
                    return Err(format!("{word}: there is no check {name}"));
                }
                let meant = |check: &&str| named.contains(check) == (word == "--only");
                args.only = CHECKS.into_iter().filter(meant).map(String::from).collect();
            }
            _ => return Err(format!("{word}: not known")),
        }
    }
    Ok(args)
}

#[cfg(test)]
mod tests {
    use super::{CHECKS, parse};

    fn words(line: &str) -> impl Iterator<Item = String> {
        line.split_whitespace().map(String::from)
    }

    #[test]
    fn what_is_said_is_read() {
        let args = parse(words("--seed 7 --count 10,000 --only place,same --all")).expect("good");
        assert_eq!((args.seed, args.count, args.all), (7, 10_000, true));
        assert_eq!(args.only, ["place", "same"]);
        let args = parse(words("--except stored,full,turns,lists,judge,endurance")).expect("good");
        assert_eq!(args.only, ["place", "coverage", "same", "horizon", "range"]);
        let args = parse(words("")).expect("good");
        assert_eq!(args.only, CHECKS);
    }

    #[test]
    fn what_is_wrong_is_said() {
        assert!(parse(words("--seed")).is_err());
        assert!(parse(words("--count -3")).is_err());
        assert!(parse(words("--only places")).is_err());
        assert!(parse(words("--except places")).is_err());
        assert!(parse(words("--speed 3")).is_err());
        assert!(parse(words("--input horizon 3ff0000000000000")).is_err());
        assert!(parse(words("--input range 3ff0000000000000 3ff0000000000000")).is_err());
    }

    #[test]
    fn an_input_is_read_bit_for_bit() {
        let args = parse(words("--input horizon 3ff0000000000000 c000000000000000")).expect("good");
        assert_eq!(args.input, Some(("horizon".to_string(), vec![1.0, -2.0])));
    }
}
