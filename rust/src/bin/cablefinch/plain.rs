//! `cablefinch plain`: whether rowsets are in the plain form.

use crate::arguments::Arguments;
use crate::input::{self, Input};
use crate::screen::{Colour, Screen};
use crate::{Stop, Verdict};
use cablefinch::wire::{self, MAX_ROWSET_SIZE};
use std::io::Write as _;

/// `cablefinch plain FILE..`.
pub fn run(arguments: &Arguments, screen: &mut Screen) -> Result<Verdict, Stop> {
    input::each(arguments.operands(), screen, one)
}

fn one(mut input: Input, screen: &mut Screen) -> Result<Verdict, Stop> {
    // No longer rowset is plain, so that one byte more tells as much as all.
    let bytes = input.whole(MAX_ROWSET_SIZE + 1, screen)?;
    let plain = wire::is_plain(&bytes);
    let _ = write!(screen.text(), "{}: ", input.name);
    if plain {
        screen.paint(Colour::Green, "plain");
    } else {
        screen.paint(Colour::Red, "not plain");
    }
    screen.text().push(b'\n');
    if plain {
        return Ok(Verdict::Right);
    }
    screen.tell(input.told(), &why(&bytes))?;
    Ok(Verdict::Refused)
}

/// Why a file is not plain.
fn why(bytes: &[u8]) -> String {
    if bytes.len() > MAX_ROWSET_SIZE {
        return format!("it has more than the {MAX_ROWSET_SIZE} bytes of a rowset");
    }
    let rowset = match wire::decode_rowset(bytes) {
        Ok(rowset) => rowset,
        Err(error) => {
            let number = error.code();
            return format!(
                "it is no rowset, refused by {number}\n    {error}\n    is it the bytes of one part?"
            );
        }
    };
    let place = rowset.encode().ok().and_then(|plain| {
        let mut pairs = plain.iter().zip(bytes);
        pairs.position(|(plain, byte)| plain != byte)
    });
    let place = match place {
        Some(place) => format!(", first at byte {place}"),
        None => String::new(),
    };
    format!(
        "its rows are written with other bytes{place}\n    read it and write it again before it is compared"
    )
}
