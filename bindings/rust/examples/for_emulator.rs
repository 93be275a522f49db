//! The example `two_nodes` behind C's `main`: under the emulator that runs x86-64 programs on Arm,
//! Rust's own start-up code fails.

#![no_main]

#[path = "two_nodes.rs"]
mod two_nodes;

#[no_mangle]
pub extern "C" fn main() -> i32 {
    two_nodes::main();
    0
}
