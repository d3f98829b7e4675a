//! The checksum that packets carry: 64 bits under the polynomial 0xe543279765927881, from 0, high
//! bit first, without a final exclusive or.

use crate::sys;

/// The checksum of one stretch of bytes, by the fastest engine.
pub fn checksum(bytes: &[u8]) -> u64 {
    sys::checksum(bytes)
}

/// The plain engine by name: the polynomial's own register after `bytes`, one byte at a step. From 0
/// it is the checksum.
pub fn fold(register: u64, bytes: &[u8]) -> u64 {
    sys::fold(register, bytes)
}

/// The second engine by name: the same register, by eight bytes at a step over eight tables, which are
/// laid out at each call.
pub fn fold8(register: u64, bytes: &[u8]) -> u64 {
    sys::fold8(register, bytes)
}

/// The checksum of two stretches joined, from their checksums and the second one's length in bytes,
/// without the bytes: the time does not grow with the length, but for its bits.
///
/// ```
/// use cablefinch::crc64::{checksum, combine};
/// let (front, back) = (b"stored ", b"in two halves");
/// assert_eq!(
///     combine(checksum(front), checksum(back), back.len() as u64),
///     checksum(b"stored in two halves")
/// );
/// ```
pub fn combine(first: u64, second: u64, length: u64) -> u64 {
    sys::combine(first, second, length)
}

/// A checksum over stretches that do not lie together.
#[derive(Debug, Clone, Copy, PartialEq, Eq, Hash, Default)]
pub struct Crc64 {
    /// Held byte-swapped, as the library holds it.
    register: u64,
}

impl Crc64 {
    /// The checksum of nothing yet.
    pub const fn new() -> Self {
        Self { register: 0 }
    }

    /// Folds `bytes` in.
    pub fn update(&mut self, bytes: &[u8]) {
        self.register = sys::update(self.register, bytes);
    }

    /// The same with `bytes` folded in.
    #[must_use]
    pub fn chain(mut self, bytes: &[u8]) -> Self {
        self.update(bytes);
        self
    }

    /// Appends a stretch of which the checksum and the length in bytes are known, without its bytes.
    pub fn append(&mut self, checksum: u64, length: u64) {
        self.register = sys::finish(combine(self.finish(), checksum, length));
    }

    /// The checksum of all that was folded in.
    pub fn finish(&self) -> u64 {
        sys::finish(self.register)
    }
}

#[cfg(test)]
mod tests {
    use super::*;

    #[test]
    fn vectors() {
        assert_eq!(checksum(b""), 0);
        assert_eq!(checksum(&[1]), 0xe543_2797_6592_7881);
        assert_eq!(checksum(&[2]), 0x2fc5_68b9_aeb6_8983);
        assert_eq!(checksum(&[3]), 0xca86_4f2e_cb24_f102);
        assert_eq!(
            checksum(&[1, 0xe5, 0x43, 0x27, 0x97, 0x65, 0x92, 0x78, 0x81]),
            0
        );
    }

    #[test]
    fn both_engines_fold_alike() {
        let bytes: Vec<u8> = (0..300u16).map(|i| (i * 7 % 251) as u8).collect();
        for register in [0, 1, 0x0123_4567_89ab_cdef, u64::MAX] {
            for length in 0..=bytes.len() {
                let plain = fold(register, &bytes[..length]);
                assert_eq!(fold8(register, &bytes[..length]), plain);
                if register == 0 {
                    assert_eq!(checksum(&bytes[..length]), plain);
                }
            }
        }
        let register = 0x0123_4567_89ab_cdef;
        let bytes = [0x00, 0x11, 0x22, 0x33, 0x44, 0x55, 0x66, 0x77, 0x88];
        assert_eq!(fold8(register, &bytes[..8]), 0xe718_8b61_064a_10a4);
        assert_eq!(fold8(register, &bytes), 0xa365_5f4f_cd73_2a5c);
        assert_eq!(fold8(register, &register.to_be_bytes()), 0);
    }

    #[test]
    fn combined_and_appended_as_joined() {
        let bytes: Vec<u8> = (0..=255).collect();
        for cut in 0..=bytes.len() {
            let (front, back) = bytes.split_at(cut);
            let length = back.len() as u64;
            let whole = combine(checksum(front), checksum(back), length);
            assert_eq!(whole, checksum(&bytes));
            let mut sum = Crc64::new().chain(front);
            sum.append(checksum(back), length);
            assert_eq!(sum.finish(), whole);
        }
        assert_eq!(combine(1, 0, 0), 1);
        assert_eq!(combine(1, 0, 8), 0xe543_2797_6592_7881);
        assert_eq!(combine(1, 0, 1 << 61), 2);
        assert_eq!(combine(1, 0, u64::MAX), 1);
    }

    #[test]
    fn stretches_fold_as_their_join() {
        let bytes: Vec<u8> = (0..=255).collect();
        for cut in 0..=bytes.len() {
            let (front, back) = bytes.split_at(cut);
            let mut sum = Crc64::new();
            sum.update(front);
            assert_eq!(sum.chain(back).finish(), checksum(&bytes));
        }
        assert_eq!(Crc64::default().finish(), 0);
    }
}
