//! Cases of the checksum beyond one stretch from nothing: both engines from any register, and the
//! checksum of two stretches from theirs.

use crate::random::Random;
use crate::text::hex_or_dash;

/// The plain engine, over one stretch or more.
pub fn fold(random: &mut Random) -> String {
    folded("fold", random)
}

/// The engine of eight bytes at a step.
pub fn fold8(random: &mut Random) -> String {
    folded("fold8", random)
}

fn folded(engine: &str, random: &mut Random) -> String {
    let mut line = format!("{engine} {:016x}", random.word());
    for _ in 0..1 + random.small(3) {
        let length = match random.below(4) {
            0 => random.below(3000),
            1 => random.below(300),
            _ => random.small(40),
        };
        line.push(' ');
        line.push_str(&hex_or_dash(&random.content(length as usize)));
    }
    line
}

/// Both engines over each length from 0 to 300, from registers of all 64 bits.
pub fn lengths(lines: &mut Vec<String>) {
    let mut random = Random::new(7);
    for length in 0..=300 {
        let bytes: Vec<u8> = (0..length).map(|_| random.byte()).collect();
        for register in [0, u64::MAX, random.next()] {
            for engine in ["fold", "fold8"] {
                lines.push(format!("{engine} {register:016x} {}", hex_or_dash(&bytes)));
            }
        }
    }
}

pub fn combine(random: &mut Random) -> String {
    let length = match random.below(3) {
        0 => random.small(5000),
        _ => random.word(),
    };
    combined(random.word(), random.word(), length)
}

fn combined(first: u64, second: u64, length: u64) -> String {
    format!("combine {first:016x} {second:016x} {length}")
}

/// Two checksums combined over lengths around each power of two.
pub fn powers(lines: &mut Vec<String>) {
    let mut random = Random::new(8);
    for bit in 0..64 {
        let power = 1u64 << bit;
        for length in [power - 1, power, power + 1, power.wrapping_neg()] {
            lines.push(combined(1, 0, length));
            lines.push(combined(random.next(), random.next(), length));
        }
    }
    lines.push(combined(u64::MAX, 0x0123_4567_89ab_cdef, u64::MAX));
}
