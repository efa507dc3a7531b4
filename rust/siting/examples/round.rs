//! A half-hour round in turns: a timer ticks, and at each tick only so many receivers are judged.
//!
//!     cargo run --release --offline --example round --manifest-path rust/siting/Cargo.toml
//!
//! Receivers come and go between the ticks; still each that stays has its turn in every round.

use siting::{Key, Refusal, Site, Watch};

const ROWS: u32 = 100;
const AT_A_TICK: u32 = 30;

/// A receiver's key.
fn receiver(number: u8) -> Key {
    let mut key = [0; 32];
    key[31] = number;
    key
}

fn main() -> Result<(), Refusal> {
    let mut watch = Watch::new(ROWS as usize)?;
    let site = Site {
        lat: 51.4775,
        lon: -0.4614,
        alt_m: Some(40),
    };
    for number in 1..=70 {
        watch.claim(&receiver(number), Some(site))?;
    }
    // 100 rows, 30 a tick: three ticks, and one more for the remainder.
    let ticks = ROWS.div_ceil(AT_A_TICK);
    let mut next = 0;
    for round in 0..2 {
        println!("round {}: {ticks} ticks", round + 1);
        for tick in 0..ticks {
            let now_ms = u64::from(round * 1_800_000 + tick * 450_000);
            let first = next;
            let (turn, after) = watch.turn(next, AT_A_TICK)?;
            let judged = turn
                .iter()
                .filter(|key| watch.judging(key, now_ms, 15).is_ok());
            println!(
                "  from row {first:2}: {:2} of {AT_A_TICK} rows used, {:2} judged; next row {after}",
                turn.len(),
                judged.count()
            );
            next = after;
            // Meanwhile one goes and one comes.
            let leaves = receiver((10 * tick + 1) as u8);
            if watch.take_out(&leaves).is_ok() {
                watch.claim(&receiver((200 + tick) as u8), Some(site))?;
            }
        }
    }
    Ok(())
}
