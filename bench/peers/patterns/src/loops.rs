//! What the drivers over Rust crates share: `PROGRAM CALL TIMES` makes a call so many times of one
//! value, and prints the sum of what it returns.

use std::hint::black_box;

/// 2000-11-03 at 05:06:07.089, an hour ahead of UTC.
pub const UNIX_TIME: i64 = 973_224_367;
pub const NANOSECONDS: u32 = 89_000_000;
pub const UT_OFFSET: i32 = 3600;

pub const LOG: &str = "03/Nov/2000:05:06:07 +0100";
pub const MAIL: &str = "Fri, 03 Nov 2000 05:06:07 +0100";
pub const INTERNET: &str = "2000-11-03T05:06:07.089+01:00";

/// Makes the call so many times, and prints the sum.
pub fn repeat<T: ?Sized>(times: i64, value: &T, mut call: impl FnMut(&T) -> i64) {
    let mut sum = 0i64;
    for _ in 0..times {
        sum = sum.wrapping_add(call(black_box(value)));
    }
    println!("{sum}");
}

/// The call and how often it is made, as the command line names them.
pub fn arguments() -> (String, i64) {
    let words: Vec<String> = std::env::args().skip(1).collect();
    let [call, times] = &words[..] else { panic!("usage: PROGRAM CALL TIMES") };
    (call.clone(), times.parse().unwrap())
}
