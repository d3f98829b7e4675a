//! The checksum, to seal packets with: document 01's rule, one bit at a time.

const POLYNOMIAL: u64 = 0xe543_2797_6592_7881;

pub fn checksum(bytes: &[u8]) -> u64 {
    bytes.iter().fold(0, |register, &byte| {
        (0..8).rev().fold(register, |register, bit| {
            let top = (register >> 63) ^ u64::from(byte >> bit & 1);
            (register << 1) ^ if top == 1 { POLYNOMIAL } else { 0 }
        })
    })
}
