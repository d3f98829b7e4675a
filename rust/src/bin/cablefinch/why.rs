//! `cablefinch why`: the line of the proved program `why`, for input of any length.

use crate::arguments::Arguments;
use crate::input::{self, Input};
use crate::limits::{Given, SHORT};
use crate::screen::{Colour, Screen};
use crate::words::{MAX_BYTES, MAX_PARTS};
use crate::{Stop, Verdict};
use cablefinch::packet::Mode;
use cablefinch::why::{self, Why};

/// What there is to explain.
pub const KINDS: &[&str] = &["packet", "rowset"];

/// `cablefinch why KIND FILE`.
pub fn run(arguments: &Arguments, screen: &mut Screen) -> Result<Verdict, Stop> {
    let kind = arguments.text(0);
    let given = Given::of(arguments)?;
    let files = &arguments.operands()[1..];
    match &*kind {
        "packet" => input::each(files, screen, |mut input, screen| {
            let bytes = front(&mut input, given, screen)?;
            let limits = given.limits(bytes.len() > SHORT);
            let told = why::packet(Mode::Archive, &bytes, limits.bytes, limits.parts);
            tell(&kind, &told, bytes.len(), &input, screen)
        }),
        "rowset" if arguments.has(&MAX_BYTES) || arguments.has(&MAX_PARTS) => Err(Stop::Usage(
            "why: a rowset has no limits to set: leave the options away".to_string(),
        )),
        "rowset" => input::each(files, screen, |mut input, screen| {
            let bytes = input.part(screen)?;
            tell(&kind, &why::rowset(&bytes), bytes.len(), &input, screen)
        }),
        _ => {
            let kinds = KINDS.join(" or ");
            Err(Stop::Usage(format!(
                "why: KIND is `{kind}`: give {kinds}, and then the file"
            )))
        }
    }
}

/// All bytes of an input, or more than the packet at its front can have.
fn front(input: &mut Input, given: Given, screen: &mut Screen) -> Result<Vec<u8>, Stop> {
    let most = usize::try_from(given.limits(true).bytes).unwrap_or(usize::MAX);
    input.whole(most.max(SHORT).saturating_add(1), screen)
}

/// Prints the line, and says it in words where something is wrong.
fn tell(
    kind: &str,
    told: &Why,
    there: usize,
    input: &Input,
    screen: &mut Screen,
) -> Result<Verdict, Stop> {
    let line = told.to_string();
    let (word, rest) = line.split_at(line.find(' ').unwrap_or(line.len()));
    let colour = match told {
        Why::Fine => Colour::Green,
        Why::More { .. } => Colour::Yellow,
        Why::Refused { .. } | Why::NotPlain(_) => Colour::Red,
    };
    screen.paint(colour, word);
    screen.text().extend_from_slice(rest.as_bytes());
    screen.text().push(b'\n');
    let (how, place) = match told {
        Why::Fine => return Ok(Verdict::Right),
        Why::More { field, length } => {
            let message = format!(
                "the {kind} is not whole\n    {field}: {length} bytes are waited for, and {there} are there: \
                 fetch the file again, to its end"
            );
            screen.tell(input.told(), &message)?;
            return Ok(Verdict::Refused);
        }
        Why::Refused { number, place } => (format!("is refused by {number}"), place),
        Why::NotPlain(place) => ("is accepted, and not plain".to_string(), place),
    };
    let message = format!(
        "the {kind} {how}\n    {} at byte {}: found {}, wanted {}",
        place.field, place.offset, place.found, place.wanted
    );
    screen.tell(input.told(), &message)?;
    Ok(Verdict::Refused)
}
