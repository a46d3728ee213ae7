//! Gives the shared library the name by which programs load it, which has the number of its layout.

use std::env;

const HEADER: &str = include_str!("tz.h");

fn main() {
    println!("cargo::rerun-if-changed=tz.h");
    let mut lines = HEADER.lines();
    let layout = lines.find_map(|line| line.strip_prefix("#define TZ_ABI "));
    let layout = layout.expect("tz.h has the number of its layout");
    let is_apple = env::var("CARGO_CFG_TARGET_VENDOR").is_ok_and(|vendor| vendor == "apple");
    // The systems with libraries of ELF.
    if env::var_os("CARGO_CFG_UNIX").is_some() && !is_apple {
        println!("cargo::rustc-cdylib-link-arg=-Wl,-soname,libtz.so.{layout}");
    }
}
