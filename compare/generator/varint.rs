//! Varints, shortest and overlong: those of YSON and of protobuf are alike.

use crate::random::Random;

/// A varint in as few bytes as there may be, or in up to ten; seldom in eleven or with bits above 64.
pub fn put(random: &mut Random, number: u64, bytes: &mut Vec<u8>) {
    let least = shortest(number);
    let size = match random.below(60) {
        0 => 11,
        1..=8 => least + random.below(11 - least as u64) as usize,
        _ => least,
    };
    bytes.extend(of(number, size));
    if size == 10 && random.once_in(3) {
        let last = bytes.len() - 1;
        bytes[last] = *random.pick(&[0, 1, 2, 3, 0x7f]);
    }
}

/// The fewest bytes that a number takes.
pub fn shortest(number: u64) -> usize {
    (64 - (number | 1).leading_zeros() as usize).div_ceil(7)
}

/// The number in so many bytes.
pub fn of(number: u64, size: usize) -> Vec<u8> {
    (0..size)
        .map(|place| {
            let bits = number.checked_shr(7 * place as u32).unwrap_or(0) as u8 & 0x7f;
            bits | if place + 1 < size { 0x80 } else { 0 }
        })
        .collect()
}
