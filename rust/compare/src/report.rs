//! What a check says: its lines to standard output, its progress to standard error.

use std::time::{Duration, Instant};

/// What became of a check.
pub enum Outcome {
    Passed,
    Failed,
    Skipped,
}

/// The differences that no excuse covers: the first few are printed, all are counted.
#[derive(Default)]
pub struct Failures {
    pub count: u64,
}

impl Failures {
    /// One more, its inputs given as text.
    pub fn add(&mut self, text: &str) {
        self.count += 1;
        if self.count <= 20 {
            println!("  FAILED {text}");
        }
    }

    /// Passed where there were none.
    pub fn outcome(&self) -> Outcome {
        if self.count == 0 {
            Outcome::Passed
        } else {
            println!("  {} not excused", self.count);
            Outcome::Failed
        }
    }
}

/// A line of progress to standard error about every two seconds.
pub struct Progress {
    name: &'static str,
    total: u64,
    begun: Instant,
    said: Instant,
}

impl Progress {
    /// Begins a check of `total` inputs.
    pub fn new(name: &'static str, total: u64) -> Self {
        let begun = Instant::now();
        Self {
            name,
            total,
            begun,
            said: begun,
        }
    }

    /// `done` inputs are through.
    pub fn at(&mut self, done: u64) {
        if done.is_multiple_of(1_024) && self.said.elapsed() > Duration::from_secs(2) {
            self.said = Instant::now();
            let seconds = self.begun.elapsed().as_secs_f64();
            eprintln!(
                "{}: {done} of {} after {seconds:.0} s",
                self.name, self.total
            );
        }
    }

    /// The seconds it took.
    pub fn seconds(&self) -> f64 {
        self.begun.elapsed().as_secs_f64()
    }
}

/// Floats as 16 hex digits each, so that an input can be given again bit for bit.
pub fn hex(floats: &[f64]) -> String {
    let words: Vec<String> = floats
        .iter()
        .map(|x| format!("{:016x}", x.to_bits()))
        .collect();
    words.join(" ")
}

#[cfg(test)]
mod tests {
    use siting::list::unhex;

    use super::hex;

    #[test]
    fn hex_comes_back() {
        for x in [0.0, -0.0, 1.5, -180.0, f64::INFINITY, f64::MIN_POSITIVE] {
            assert_eq!(unhex(&hex(&[x])).map(f64::to_bits), Some(x.to_bits()));
        }
        assert_eq!(hex(&[1.0, -2.0]), "3ff0000000000000 c000000000000000");
        assert_eq!(unhex("3ff"), None);
        assert_eq!(unhex("+ff0000000000000"), None);
        assert_eq!(unhex("3ff000000000000g"), None);
    }
}
