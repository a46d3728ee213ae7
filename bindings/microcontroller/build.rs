//! Gives the linker the places of flash and RAM.

fn main() {
    println!("cargo::rerun-if-changed=memory.ld");
    println!(
        "cargo::rustc-link-arg=-T{}/memory.ld",
        env!("CARGO_MANIFEST_DIR")
    );
}
