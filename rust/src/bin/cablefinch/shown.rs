//! Names of files and places in them, as a person reads them.

use cablefinch::shown::Text;
use std::ffi::OsStr;

/// How many bytes are shown before and behind a place.
const AROUND: usize = 20;

/// A file's name, or another word of the command line.
pub fn name(name: &OsStr) -> String {
    Text(name.as_encoded_bytes()).to_string()
}

/// The bytes around a place, and a caret under it.
pub fn place(bytes: &[u8], place: usize) -> String {
    let place = place.min(bytes.len());
    let from = place.saturating_sub(AROUND);
    let till = place.saturating_add(AROUND).min(bytes.len());
    let front = if from > 0 { ".. " } else { "" };
    let back = if till < bytes.len() { " .." } else { "" };
    let (before, behind) = (escaped(&bytes[from..place]), escaped(&bytes[place..till]));
    let column = front.len() + before.len();
    format!("    {front}{before}{behind}{back}\n    {:column$}^", "")
}

/// The line of a text that a place is in, and a caret under it.
pub fn line(text: &[u8], place: usize) -> String {
    let (before, rest) = text.split_at(place.min(text.len()));
    let feed = |&byte: &u8| byte == b'\n';
    let from = before.iter().rposition(feed).map_or(0, |feed| feed + 1);
    let till = rest
        .iter()
        .position(feed)
        .map_or(text.len(), |feed| before.len() + feed + 1);
    self::place(&text[from..till], before.len() - from)
}

/// Bytes of any kind, those that are printable as they are.
fn escaped(bytes: &[u8]) -> String {
    let mut line = String::new();
    for &byte in bytes {
        match byte {
            b'"' | b'\'' => line.push(char::from(byte)),
            _ => line.extend(byte.escape_ascii().map(char::from)),
        }
    }
    line
}
