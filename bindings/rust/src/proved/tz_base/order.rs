// Generated from crates/tz_base/src/order.rt by bindings/erase: its contracts are cut. Change that file instead.
//! The lesser and the greater of two numbers. No constant may call `min` or `max`, which are of a
//! trait.

/// The lesser of two numbers of 32 bits.
#[must_use]
pub const fn lesser_i32(a: i32, b: i32) -> i32 {
    if b < a { b } else { a }
}

/// The greater of two numbers of 32 bits.
#[must_use]
pub const fn greater_i32(a: i32, b: i32) -> i32 {
    if b < a { a } else { b }
}

/// The lesser of two numbers of 64 bits.
#[must_use]
pub const fn lesser_i64(a: i64, b: i64) -> i64 {
    if a < b { a } else { b }
}

/// The greater of two numbers of 64 bits.
#[must_use]
pub const fn greater_i64(a: i64, b: i64) -> i64 {
    if a < b { b } else { a }
}
