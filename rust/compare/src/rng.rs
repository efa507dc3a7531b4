//! Random numbers from a printed seed (splitmix64), the same on every machine.

/// A stream of random numbers.
pub struct Rng(u64);

impl Rng {
    /// The stream of a seed and a check's name, so that checks do not move each other's inputs.
    pub fn new(seed: u64, name: &str) -> Self {
        let mut rng = Self(seed);
        for byte in name.bytes() {
            rng.0 = rng.next() ^ u64::from(byte);
        }
        rng
    }

    /// 64 random bits.
    pub fn next(&mut self) -> u64 {
        self.0 = self.0.wrapping_add(0x9E37_79B9_7F4A_7C15);
        let mut z = self.0;
        z = (z ^ (z >> 30)).wrapping_mul(0xBF58_476D_1CE4_E5B9);
        z = (z ^ (z >> 27)).wrapping_mul(0x94D0_49BB_1331_11EB);
        z ^ (z >> 31)
    }

    /// A number below `n`.
    pub fn below(&mut self, n: usize) -> usize {
        ((u128::from(self.next()) * n as u128) >> 64) as usize
    }

    /// A number from `low` to `high`, both counted.
    pub fn int(&mut self, low: i64, high: i64) -> i64 {
        low + self.below((high - low + 1) as usize) as i64
    }

    /// True once in `n`.
    pub fn one_in(&mut self, n: usize) -> bool {
        self.below(n) == 0
    }

    /// A float from `low` up to `high`.
    pub fn float(&mut self, low: f64, high: f64) -> f64 {
        let part = (self.next() >> 11) as f64 / (1u64 << 53) as f64;
        low + (high - low) * part
    }

    /// A float of either sign, its size up to `most`.
    pub fn within(&mut self, most: f64) -> f64 {
        self.float(-most, most)
    }

    /// One of these.
    pub fn pick<T: Copy>(&mut self, from: &[T]) -> T {
        from[self.below(from.len())]
    }
}

#[cfg(test)]
mod tests {
    use super::Rng;

    #[test]
    fn bounds_are_kept_and_reached() {
        let mut rng = Rng::new(1, "bounds");
        let mut seen = [false; 7];
        for _ in 0..1_000 {
            seen[(rng.int(-3, 3) + 3) as usize] = true;
            let x = rng.float(-2.0, 5.0);
            assert!((-2.0..5.0).contains(&x));
        }
        assert_eq!(seen, [true; 7]);
    }

    #[test]
    fn a_seed_repeats_and_a_name_differs() {
        let first = |name| Rng::new(7, name).next();
        assert_eq!(first("place"), first("place"));
        assert_ne!(first("place"), first("same"));
    }
}
