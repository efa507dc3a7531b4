//! The C functions as `siting.h` declares them, for who calls them without this crate's types.
//!
//! Each is total: any bits may be passed. What a caller owes is memory: `rows`, `cells`, `ends`,
//! `answer`, `key` and `list` point to as many numbers as is said, and none that is written is
//! shared while the call runs. [`crate::Lent`] owes it by its borrows.

unsafe extern "C" {
    /// The radio horizon: [`crate::horizon_km`].
    pub safe fn horizon_km(antenna_m: f64, aircraft_m: f64) -> f64;

    /// The place of a position: [`crate::siting_place`].
    pub safe fn siting_place(lat1: f64, lon1: f64, lat2: f64, lon2: f64) -> u16;
}

/// Declares calls over a watch: the lent memory and the answer, then each call's own arguments.
macro_rules! over_a_watch {
    ($($(#[$said:meta])* fn $name:ident($($argument:ident: $type:ty),*);)*) => {
        unsafe extern "C" {
            $(
                $(#[$said])*
                ///
                /// # Safety
                /// The memory is the caller's to lend, as the module says.
                pub fn $name(
                    rows: *mut u64,
                    rows_len: usize,
                    cells: *mut u32,
                    cells_len: usize,
                    ends: *mut [u32; 3],
                    answer: *mut [u64; 9],
                    $($argument: $type),*
                );
            )*
        }
    };
}

over_a_watch! {
    /// Every row free and as new: [`crate::Lent::fresh`].
    fn siting_fresh();

    /// A receiver claims a site or none: [`crate::Lent::claim`].
    fn siting_claim(
        key: *const [u64; 4],
        site: u8,
        lat: f64,
        lon: f64,
        alt: u8,
        alt_m: i32
    );

    /// A receiver has heard an aircraft: [`crate::Lent::position`].
    fn siting_position(
        key: *const [u64; 4],
        lat: f64,
        lon: f64,
        has_feet: u8,
        feet: i32,
        address: u32,
        at_ms: u64
    );

    /// A receiver's site is judged: [`crate::Lent::judging`].
    fn siting_judging(key: *const [u64; 4], now_ms: u64, aircraft: u64);

    /// What is held of a receiver's site: [`crate::Lent::check`].
    fn siting_check(key: *const [u64; 4]);

    /// A receiver's row is freed: [`crate::Lent::take_out`].
    fn siting_take_out(key: *const [u64; 4]);

    /// The least recently used row is freed: [`crate::Lent::drop_oldest`].
    fn siting_drop_oldest();
}

unsafe extern "C" {
    /// A tick of the turn keeper, over a watch that is only read and a list of keys of 32 bytes
    /// each: [`crate::Lent::turn`].
    ///
    /// # Safety
    /// The memory is the caller's to lend, as the module says.
    pub fn siting_turn(
        rows: *const u64,
        rows_len: usize,
        cells: *const u32,
        cells_len: usize,
        ends: *const [u32; 3],
        answer: *mut [u64; 9],
        next: u32,
        k: u32,
        list: *mut u8,
        list_len: usize,
    );
}
