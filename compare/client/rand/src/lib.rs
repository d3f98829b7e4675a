//! Stands in for the crate `rand`, of which the original's `guid.rs` calls one function.

use std::io::Read;

/// Fills `bytes` from the system's source of random numbers.
pub fn fill(bytes: &mut [u8]) {
    let mut source = std::fs::File::open("/dev/urandom").expect("a source of random numbers");
    source.read_exact(bytes).expect("random numbers");
}
