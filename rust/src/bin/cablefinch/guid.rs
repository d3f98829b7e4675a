//! `cablefinch guid`: GUIDs in normal form, or where a text goes wrong.

use crate::arguments::{Arguments, STANDARD_INPUT};
use crate::input::Input;
use crate::screen::Screen;
use crate::{Stop, Verdict};
use cablefinch::Guid;
use std::io::Write as _;

/// `cablefinch guid TEXT..`.
pub fn run(arguments: &Arguments, screen: &mut Screen) -> Result<Verdict, Stop> {
    let mut worst = Verdict::Right;
    for operand in arguments.operands() {
        let verdict = if operand == STANDARD_INPUT {
            lines(Input::open(operand)?, screen)?
        } else {
            one(operand.as_encoded_bytes(), "", screen)?
        };
        worst = worst.max(verdict);
    }
    Ok(worst)
}

/// Each line of an input is a text.
fn lines(mut input: Input, screen: &mut Screen) -> Result<Verdict, Stop> {
    let bytes = input.part(screen)?;
    let mut worst = Verdict::Right;
    let bytes = bytes.strip_suffix(b"\n").unwrap_or(&bytes);
    for (index, line) in bytes.split(|&byte| byte == b'\n').enumerate() {
        let line = line.strip_suffix(b"\r").unwrap_or(line);
        worst = worst.max(one(line, &format!("line {}: ", index + 1), screen)?);
    }
    Ok(worst)
}

fn one(text: &[u8], before: &str, screen: &mut Screen) -> Result<Verdict, Stop> {
    match Guid::from_text(text) {
        Ok(id) => {
            let _ = writeln!(screen.text(), "{id}");
            screen.settle()?;
            Ok(Verdict::Right)
        }
        Err(error) => {
            screen.flush()?;
            screen.say(&format!("{before}{error}"));
            Ok(Verdict::Refused)
        }
    }
}
