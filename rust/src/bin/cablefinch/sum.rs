//! `cablefinch sum` and `cablefinch join`: checksums of files, and of two halves joined.

use crate::arguments::Arguments;
use crate::input::{self, PIECE};
use crate::screen::Screen;
use crate::{Stop, Verdict};
use cablefinch::crc64::{self, Crc64};
use std::io::Write as _;

/// `cablefinch sum FILE..`.
pub fn run(arguments: &Arguments, screen: &mut Screen) -> Result<Verdict, Stop> {
    let mut room = Vec::new();
    input::each(arguments.operands(), screen, |mut input, screen| {
        input.grow(&mut room, PIECE)?;
        let (mut sum, mut length) = (Crc64::new(), 0);
        loop {
            match input.read(&mut room, screen)? {
                0 => break,
                count => {
                    sum.update(&room[..count]);
                    length += count as u64;
                }
            }
        }
        let sum = sum.finish();
        let _ = writeln!(screen.text(), "{sum:016x} {length} {}", input.name);
        Ok(Verdict::Right)
    })
}

/// `cablefinch join A B LENGTH`.
pub fn join(arguments: &Arguments, screen: &mut Screen) -> Result<Verdict, Stop> {
    let [first, second, length] = [0, 1, 2].map(|index| arguments.text(index));
    let sum = crc64::combine(
        checksum("A", &first)?,
        checksum("B", &second)?,
        length.parse().map_err(|_| {
            Stop::Usage(format!(
                "join: LENGTH is `{length}`: give the bytes of the second half, as a decimal number below 2^64"
            ))
        })?,
    );
    let _ = writeln!(screen.text(), "{sum:016x}");
    Ok(Verdict::Right)
}

/// A checksum as [`run`] prints it, or with `0x` before it, as refusals have it.
fn checksum(name: &str, text: &str) -> Result<u64, Stop> {
    let digits = text.strip_prefix("0x").unwrap_or(text);
    // No sign, which Rust's own reading takes.
    let hex = digits.len() <= 16 && digits.bytes().all(|byte| byte.is_ascii_hexdigit());
    match u64::from_str_radix(digits, 16) {
        Ok(sum) if hex => Ok(sum),
        _ => Err(Stop::Usage(format!(
            "join: {name} is `{text}`: give a checksum of 1 to 16 hex digits, as `cablefinch sum` prints it"
        ))),
    }
}
