//! The same functions where the original is not there: the callers compile, and must not call.

use crate::{CELLS, Claim, Counter, Degrees, Held, Key, Number, Original, Relay, Row, Seen, State};

/// A caller did not look at [`crate::FOUND`].
fn absent() -> ! {
    panic!("oracle: source not found")
}

#[allow(missing_docs)]
impl Original {
    pub fn local_km(_: Degrees, _: Degrees) -> (f64, f64) {
        absent()
    }
    pub fn distance_km(_: Degrees, _: Degrees) -> f64 {
        absent()
    }
    pub fn bearing_deg(_: Degrees, _: Degrees) -> f64 {
        absent()
    }
    pub fn same_place(_: Degrees, _: Degrees) -> bool {
        absent()
    }
    pub fn sector_of(_: f64, _: f64) -> usize {
        absent()
    }
    pub fn rounded(_: f64) -> u32 {
        absent()
    }
    pub fn place(_: Degrees, _: Degrees) -> u16 {
        absent()
    }
    pub fn bucket(_: Option<i32>) -> u8 {
        absent()
    }
    pub fn aircraft_bit(_: u32) -> u16 {
        absent()
    }
    pub fn horizon_km(_: f64, _: f64) -> f64 {
        absent()
    }
}

#[allow(missing_docs)]
impl Counter {
    #[allow(clippy::new_without_default)]
    pub fn new() -> Self {
        absent()
    }
    pub fn place(&mut self, _: Degrees, _: Degrees) -> u16 {
        absent()
    }
}

#[allow(missing_docs)]
impl Row {
    pub fn new(_: &Held, _: &[u32; CELLS]) -> Self {
        absent()
    }
    pub fn judge(&self, _: u64, _: u64) -> Number {
        absent()
    }
}

#[allow(missing_docs)]
impl Relay {
    pub fn new(_: usize) -> Self {
        absent()
    }
    pub fn lent(_: usize) -> Self {
        absent()
    }
    pub fn claim(&mut self, _: Key, _: Option<Claim>) -> (u32, Option<Key>) {
        absent()
    }
    pub fn position(
        &mut self,
        _: Key,
        _: Degrees,
        _: Option<i32>,
        _: u32,
        _: u64,
    ) -> Result<(), u8> {
        absent()
    }
    pub fn holds(&self, _: Key) -> bool {
        absent()
    }
    pub fn judge(&self, _: Key, _: u64, _: u64) -> Option<Number> {
        absent()
    }
    pub fn judged(&mut self, _: Key, _: Number) {
        absent()
    }
    pub fn round(&mut self, _: &[(Key, Number)]) -> Vec<(Key, bool)> {
        absent()
    }
    pub fn check(&self, _: Key) -> Result<State, u8> {
        absent()
    }
    pub fn take_out(&mut self, _: Key) -> Result<Key, u8> {
        absent()
    }
    pub fn drop_oldest(&mut self) -> Result<Key, u8> {
        absent()
    }
    pub fn seen(&self) -> Vec<Seen> {
        absent()
    }
    pub fn cells(&self, _: Key) -> Box<[u32; CELLS]> {
        absent()
    }
    pub fn put(&mut self, _: &Seen, _: &[u32; CELLS]) {
        absent()
    }
}
