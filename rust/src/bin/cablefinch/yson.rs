//! `cablefinch yson`: whether a value is well formed, and where it breaks.

use crate::arguments::Arguments;
use crate::input;
use crate::screen::{Colour, Screen};
use crate::{Stop, Verdict};
use cablefinch::yson;
use std::io::Write as _;

/// `cablefinch yson FILE`.
pub fn run(arguments: &Arguments, screen: &mut Screen) -> Result<Verdict, Stop> {
    input::each(arguments.operands(), screen, |mut input, screen| {
        let bytes = input.part(screen)?;
        let error = match yson::check(&bytes) {
            Ok(items) => {
                screen.paint(Colour::Green, "well formed");
                let _ = match items {
                    0 => writeln!(screen.text()),
                    1 => writeln!(screen.text(), ", a map of 1 item"),
                    _ => writeln!(screen.text(), ", a map of {items} items"),
                };
                return Ok(Verdict::Right);
            }
            Err(error) => error,
        };
        // A check takes no table, so every refusal has its place.
        let place = error.place().unwrap_or(0);
        let why = format!("{error}{}", advice(&bytes, place));
        screen.refuse(input.told(), &bytes, (place, error.code()), &why)?;
        Ok(Verdict::Refused)
    })
}

/// What to do, where the bytes are something that people take for YSON: a line of its own.
fn advice(bytes: &[u8], place: usize) -> &'static str {
    match bytes.get(place..) {
        Some([]) if place == 0 => "\n    it is empty",
        Some([]) => "\n    it ends there: fetch it again, to its end",
        Some(b"\n" | b"\r\n") if place > 0 => {
            "\n    a line's end stands behind the value: leave it away"
        }
        Some([byte, ..]) if byte.is_ascii_alphanumeric() || b"\"%-+ \t\r\n".contains(byte) => {
            "\n    the binary form alone is read, and this looks like the text form"
        }
        _ => "",
    }
}
