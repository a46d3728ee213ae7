//! Looks up random instants of 1902 to 2037 in a zone: `lookups constant Europe/Paris 6000` in the
//! constant, `lookups file Europe/Paris 6000` in the zone of the machine's file. bench/zones counts
//! what a lookup takes.

use std::env;
use std::hint::black_box;

use tz::{DateTime, TimeZone};

const FIRST: i64 = -2_145_916_800;
const SECONDS: u64 = 4_291_747_200;

/// A number below a bound, by a linear congruence modulo 2^64. (Knuth's MMIX)
fn below(bound: u64, state: &mut u64) -> u64 {
    *state = state
        .wrapping_mul(6_364_136_223_846_793_005)
        .wrapping_add(1_442_695_040_888_963_407);
    ((*state >> 32) * bound) >> 32
}

fn main() {
    let words: Vec<String> = env::args().skip(1).collect();
    let [kind, name, count] = words.as_slice() else {
        panic!("usage: lookups constant|file NAME COUNT");
    };
    let read = TimeZone::named(name).expect("a zone of the machine");
    let zone = match kind.as_str() {
        "constant" => tz_zones::named(name).expect("a name"),
        _ => read.as_ref(),
    };
    let mut state = 1;
    for _ in 0..count.parse().expect("a number") {
        let unix_time = FIRST + below(SECONDS, &mut state) as i64;
        let _ = black_box(DateTime::from_timespec(unix_time, 0, black_box(zone)));
    }
}
