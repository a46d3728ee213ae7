//! Prints how long `named` takes: `cargo run --release --example measure`.

use std::hint::black_box;
use std::time::Instant;

use tz_zones::{NAMES, named};

/// Rounds over all names, of which the least time is taken, since other programs run meanwhile.
const ROUNDS: usize = 10_000;

fn main() {
    let times = (0..ROUNDS).map(|_| {
        let start = Instant::now();
        for name in NAMES {
            black_box(named(black_box(name)));
        }
        start.elapsed().as_nanos()
    });
    let least = times.min().unwrap_or_default();
    println!("named: {} ns", least / NAMES.len() as u128);
}
