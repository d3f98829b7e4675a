//! `cablefinch error`: an error message from the cluster as a person reads it.

use crate::arguments::Arguments;
use crate::input;
use crate::screen::Screen;
use crate::{Stop, Verdict};
use cablefinch::error::TError;
use std::io::Write as _;

/// `cablefinch error FILE`.
pub fn run(arguments: &Arguments, screen: &mut Screen) -> Result<Verdict, Stop> {
    input::each(arguments.operands(), screen, |mut input, screen| {
        let bytes = input.part(screen)?;
        let refusal = match TError::read(&bytes) {
            Ok(message) => {
                for error in message.errors() {
                    writeln!(screen.text(), "{error}")?;
                    screen.settle()?;
                }
                return Ok(Verdict::Right);
            }
            Err(refusal) => refusal,
        };
        let Some(place) = refusal.place() else {
            // Memory ran out, which says nothing of the message.
            return Err(Stop::Input(format!("{}: {refusal}", input.told())));
        };
        let end = if place < bytes.len() {
            "\n    is it the protobuf message alone, to its end?"
        } else {
            ""
        };
        let why = format!("{refusal}{end}");
        screen.refuse(input.told(), &bytes, (place, refusal.code()), &why)?;
        Ok(Verdict::Refused)
    })
}
