//! The static library's functions, over slices: those that the Rust crate calls, and the rest.

#[macro_use]
#[allow(dead_code)] // compare/why compares what is told of a refusal, over the program
#[path = "../../../rust/src/sys.rs"]
mod sys;

pub(crate) use sys::*;

#[rustfmt::skip]
mod raw {
    use super::Outcome;
    unsafe extern "C" {
        pub(super) fn cablefinch_decode(o: *mut Outcome, mode: u64, input: *const u8, n: usize, max_message_size: u64, parts: *mut u64, words: usize) -> *mut Outcome;
        pub(super) fn cablefinch_part(o: *mut Outcome, input: *const u8, n: usize, parts: *const u64, words: usize, index: usize) -> *mut Outcome;
        pub(super) fn cablefinch_part_checksum(input: *const u8, n: usize, parts: *const u64, words: usize, index: usize) -> u64;
        pub(super) fn cablefinch_read_value(o: *mut Outcome, input: *const u8, n: usize, at: usize) -> *mut Outcome;
    }
}

pub(crate) fn decode(mode: u64, input: &[u8], limit: u64, parts: &mut [u64]) -> Outcome {
    ask!(cablefinch_decode mode [input] limit [mut parts])
}

pub(crate) fn part(input: &[u8], parts: &[u64], index: usize) -> Outcome {
    ask!(cablefinch_part [input] [parts] index)
}

pub(crate) fn part_checksum(input: &[u8], parts: &[u64], index: usize) -> u64 {
    // SAFETY: the pointers and lengths of two slices, only read.
    unsafe {
        raw::cablefinch_part_checksum(
            input.as_ptr(),
            input.len(),
            parts.as_ptr(),
            parts.len(),
            index,
        )
    }
}

pub(crate) fn read_value(input: &[u8], at: usize) -> Outcome {
    ask!(cablefinch_read_value [input] at)
}
