//! Rowsets as tab-separated text, for a desk that edits term lists in spreadsheets.
//!
//! A line for each row: `#` for a null row, an empty line for an empty one, else the row's values with a
//! tab between two. A value is its column, a colon, `!` if it is an aggregate, a letter for its type (`n`
//! Null, `i` Int64, `u` Uint64, `d` Double, `b` Boolean, `s` String, `a` Any, `c` Composite) and what it
//! holds: 16 small hex digits of a scalar's word, so that doubles lose nothing, or bytes. Of these, what is
//! outside 0x21 to 0x7e and the percent sign, and no others, are a percent sign and two capital hex digits.
//! Every line ends in a line feed. There is one text for a list of rows, and one list of rows for a text:
//! what is written is read back, and what is read is written again as it was. `docs/TEXT.md` is the page
//! for whoever edits such a list.
//!
//! ```
//! use cablefinch::text::{read_text, write_text};
//! use cablefinch::wire::{UnversionedValue, Value};
//!
//! let term = UnversionedValue::new(0, Value::String("gum line, Zähne".as_bytes()));
//! let page = UnversionedValue::new(7, Value::Uint64(10));
//! let rows = [Some(vec![term, page]), None, Some(vec![])];
//! let text = write_text(&rows)?;
//! assert_eq!(text, b"0:sgum%20line,%20Z%C3%A4hne\t7:u000000000000000a\n#\n\n");
//!
//! let read = read_text(&text)?;
//! assert_eq!(read.rowset().write_text()?, text);
//! assert_eq!(read.rowset().rows().nth(0).flatten().and_then(|row| row.column(7)), Some(page));
//! // The bytes of the rowset that these lines are.
//! let bytes = read.rowset().encode()?;
//! assert_eq!(bytes, cablefinch::wire::encode_rowset(&rows)?);
//!
//! // A space that was typed as it is.
//! let error = read_text(b"#\n0:sgum line\n").unwrap_err();
//! assert_eq!((error.code(), error.place()), (19, Some(8)));
//! assert_eq!((error.line(), error.column()), (Some(2), Some(7)));
//! assert_eq!(
//!     error.to_string(),
//!     "line 2, column 7, cell A2: a space; write it as %20"
//! );
//! # Ok::<(), Box<dyn std::error::Error>>(())
//! ```

#[cfg(test)]
mod tests;

use crate::shown::Text;
use crate::sys::{self, Outcome};
use crate::table::{self, count};
use crate::wire::{
    MAX_ROWS_PER_ROWSET, OwnedRowset, Rowset, UnversionedValue, WIDTH, WireError, accepted,
    with_tables,
};
use std::fmt;

/// The least bytes of a value's text, with what stands behind it.
const SHORTEST: usize = 4;

/// How many bytes of tables a byte of text has at most where rows and values are of usual lengths.
const USUAL: usize = 3;

/// The digits of a scalar's word.
const WORD_DIGITS: usize = 16;

/// How many bytes [`write_text`] gives, or why it refuses.
pub fn text_size<'a, R>(rows: &[Option<R>]) -> Result<usize, WireError>
where
    R: AsRef<[UnversionedValue<'a>]>,
{
    with_tables(rows, size)
}

/// The text of rows: `None` is written as a null row, `Some` of no values as an empty one. Refused as
/// [`wire::encode_rowset`](crate::wire::encode_rowset) refuses: what cannot be a rowset has no text. All of
/// its bytes are ASCII.
pub fn write_text<'a, R>(rows: &[Option<R>]) -> Result<Vec<u8>, WireError>
where
    R: AsRef<[UnversionedValue<'a>]>,
{
    with_tables(rows, write)
}

impl Rowset<'_> {
    /// How many bytes [`Rowset::write_text`] gives. They may be more than a rowset may have.
    pub fn text_size(&self) -> Result<usize, WireError> {
        size(self.tables())
    }

    /// The rowset as tab-separated text ([`crate::text`]), without a copy of its bytes in between.
    pub fn write_text(&self) -> Result<Vec<u8>, WireError> {
        write(self.tables())
    }
}

fn size((area, rows, values): (&[u8], &[u64], &[u64])) -> Result<usize, WireError> {
    accepted(sys::text_size(area, rows, values)).map(|outcome| count(outcome.count))
}

fn write(tables: (&[u8], &[u64], &[u64])) -> Result<Vec<u8>, WireError> {
    let size = size(tables)?;
    let mut out = Vec::new();
    if !table::grow(&mut out, size) {
        return Err(WireError::no_room(size, 1));
    }
    let (area, rows, values) = tables;
    accepted(sys::write_text(area, rows, values, &mut out))?;
    Ok(out)
}

/// Reads the text that `text` is, all of it, into a rowset with memory of its own.
///
/// The tables have 8 bytes for each row and 40 for each value, and the area has no more bytes than the text
/// has. For a text that is refused no more is reserved than four times its bytes.
pub fn read_text(text: &[u8]) -> Result<OwnedRowset, TextError> {
    let room = Room::of(text);
    if room.bytes() > text.len().saturating_mul(USUAL) {
        // Unusually many rows and values, if it is a text at all: that is asked first.
        let outcome = sys::read_text(text, &mut [], &mut [], &mut []);
        if outcome.kind != sys::ACCEPTED && outcome.number != 17 {
            return Err(TextError::of(&outcome, text));
        }
    }
    let mut read = OwnedRowset::default();
    // Where there is no memory for them, 17 says so below.
    table::grow(&mut read.rows, room.rows);
    table::grow(&mut read.values, room.values.saturating_mul(WIDTH));
    table::grow(&mut read.area, text.len());
    let outcome = sys::read_text(text, &mut read.rows, &mut read.values, &mut read.area);
    if outcome.kind != sys::ACCEPTED {
        return Err(TextError::of(&outcome, text));
    }
    let [rows, values, ..] = outcome.values;
    read.rows.truncate(count(rows));
    read.values.truncate(count(values).saturating_mul(WIDTH));
    read.area.truncate(count(outcome.count));
    Ok(read)
}

/// How many rows and values a text has if it is one: as many rows as line feeds, and a value behind each
/// tab and on each line that begins with a digit.
struct Room {
    rows: usize,
    values: usize,
}

impl Room {
    fn of(text: &[u8]) -> Self {
        let (mut rows, mut values, mut before) = (0, 0, b'\n');
        for &byte in text {
            rows += usize::from(byte == b'\n');
            let first = before == b'\n' && byte.is_ascii_digit();
            values += usize::from(byte == b'\t' || first);
            before = byte;
        }
        Self {
            rows: rows.min(MAX_ROWS_PER_ROWSET as usize),
            values: values.min(text.len() / SHORTEST),
        }
    }

    /// The bytes of both tables.
    fn bytes(&self) -> usize {
        let words = self.values.saturating_mul(WIDTH).saturating_add(self.rows);
        words.saturating_mul(size_of::<u64>())
    }
}

/// Why a text is refused. Printed, it says what to do.
#[derive(Debug, Clone, Copy, PartialEq, Eq)]
#[non_exhaustive]
pub enum TextError {
    /// It is not of the form.
    BadText(BadText),
    /// Its rows are more than a rowset may have, or there was no memory for their tables.
    Limit(WireError),
}

impl TextError {
    /// The refusal's number: 19, or that of the limit.
    pub const fn code(&self) -> u32 {
        match self {
            Self::BadText(_) => 19,
            Self::Limit(limit) => limit.code(),
        }
    }

    /// The first byte, counted from 0, with which no text of the form could go on, whatever followed; or the
    /// text's length, where it merely ends too soon. A limit has no place.
    pub const fn place(&self) -> Option<usize> {
        match self {
            Self::BadText(bad) => Some(bad.place),
            Self::Limit(_) => None,
        }
    }

    /// The line, counted from 1 as editors count: that of the place, or of the row that is one too many or
    /// has a value too many.
    pub fn line(&self) -> Option<usize> {
        match self {
            Self::BadText(bad) => Some(bad.line),
            Self::Limit(WireError::TooManyRows { count: rows }) => Some(count(*rows)),
            Self::Limit(WireError::TooManyValues { row, .. }) => Some(row.saturating_add(1)),
            Self::Limit(_) => None,
        }
    }

    /// The place's byte in its line, counted from 1.
    pub const fn column(&self) -> Option<usize> {
        match self {
            Self::BadText(bad) => Some(bad.column),
            Self::Limit(_) => None,
        }
    }

    fn of(outcome: &Outcome, text: &[u8]) -> Self {
        match outcome.number {
            19 => Self::BadText(BadText::at(text, count(outcome.values[0]))),
            _ => Self::Limit(WireError::of(outcome)),
        }
    }
}

impl fmt::Display for TextError {
    fn fmt(&self, formatter: &mut fmt::Formatter<'_>) -> fmt::Result {
        match self {
            Self::BadText(bad) => bad.fmt(formatter),
            Self::Limit(limit @ WireError::AllocationFailed { .. }) => limit.fmt(formatter),
            Self::Limit(limit) => {
                if let Some(line) = self.line() {
                    write!(formatter, "line {line}: ")?;
                }
                write!(formatter, "{limit}; split the list")
            }
        }
    }
}

impl std::error::Error for TextError {}

/// Where a text goes wrong, what stands there, and what could. [`TextError`] tells place, line and column.
#[derive(Debug, Clone, Copy, PartialEq, Eq)]
pub struct BadText {
    place: usize,
    line: usize,
    column: usize,
    /// How many tabs stand before the place in its line.
    tabs: usize,
    /// What stands at the place: the bytes of a character, or one that begins none; and how many.
    found: [u8; 4],
    length: usize,
    wanted: Wanted,
}

/// What could stand at a place instead, or how something else came there.
#[derive(Debug, Clone, Copy, PartialEq, Eq)]
enum Wanted {
    /// More bytes: the text ends.
    More,
    /// No carriage return at a line's end.
    LineFeed,
    /// Not the mark that some programs put before a text.
    NoMark,
    /// No quotation marks around a value.
    NoQuotes,
    /// Neither tab nor line's end: a value between, or the tab away.
    NoTab,
    /// A line's first byte.
    Line,
    /// Nothing but the line's end behind `#`.
    LineEnd,
    /// A value's first byte.
    Value,
    /// One more digit of a column, or the colon.
    Colon,
    /// A type's letter.
    Letter,
    /// A tab or the line's end.
    ValueEnd,
    /// One of the sixteen digits of a number.
    Digit,
    /// One of the sixteen digits of a boolean.
    Truth,
    /// A byte that stands for itself, or an escape.
    Byte,
    /// A digit of an escape.
    Escape,
}

impl Wanted {
    /// What is wanted behind the beginning of a line, which begins a line of the form.
    fn behind(line: &[u8]) -> Self {
        let from = line.iter().rposition(|&byte| byte == b'\t');
        let value = &line[from.map_or(0, |tab| tab + 1)..];
        let mut halves = value.splitn(2, |&byte| byte == b':');
        let id = halves.next().unwrap_or_default();
        let Some(rest) = halves.next() else {
            return match (line, id) {
                (b"", _) => Self::Line,
                (b"#", _) => Self::LineEnd,
                (_, b"") => Self::Value,
                _ => Self::Colon,
            };
        };
        match rest.strip_prefix(b"!").unwrap_or(rest) {
            [] => Self::Letter,
            [b'b', digits @ ..] if digits.len() < WORD_DIGITS => Self::Truth,
            [b'i' | b'u' | b'd', digits @ ..] if digits.len() < WORD_DIGITS => Self::Digit,
            [b's' | b'a' | b'c', .., b'%'] | [b's' | b'a' | b'c', .., b'%', _] => Self::Escape,
            [b's' | b'a' | b'c', ..] => Self::Byte,
            _ => Self::ValueEnd,
        }
    }
}

impl BadText {
    fn at(text: &[u8], place: usize) -> Self {
        let place = place.min(text.len());
        let (before, rest) = text.split_at(place);
        let feeds = |bytes: &[u8]| bytes.iter().filter(|&&byte| byte == b'\n').count();
        let from = before.iter().rposition(|&byte| byte == b'\n');
        let line = &before[from.map_or(0, |feed| feed + 1)..];
        let wanted = match (Wanted::behind(line), rest) {
            (_, []) => Wanted::More,
            (_, [b'\r', b'\n', ..] | [b'\r']) => Wanted::LineFeed,
            (Wanted::Line, [0xef, 0xbb, 0xbf, ..] | [0xff, 0xfe, ..] | [0xfe, 0xff, ..])
                if place == 0 =>
            {
                Wanted::NoMark
            }
            (Wanted::Line | Wanted::Value, [b'"', ..]) => Wanted::NoQuotes,
            (Wanted::Line | Wanted::LineEnd, [b'\t', ..])
            | (Wanted::Value, [b'\t' | b'\n', ..]) => Wanted::NoTab,
            (wanted, _) => wanted,
        };
        let (mut found, character) = ([0; 4], first_character(rest));
        found[..character.len()].copy_from_slice(character);
        Self {
            place,
            line: feeds(before) + 1,
            column: line.len() + 1,
            tabs: line.iter().filter(|&&byte| byte == b'\t').count(),
            found,
            length: character.len(),
            wanted,
        }
    }

    /// The spreadsheet's name of the cell that the place is in: its column in letters, its row.
    fn cell(&self) -> String {
        let (mut letters, mut left) = (Vec::new(), self.tabs + 1);
        while left > 0 {
            letters.insert(0, b'A' + ((left - 1) % 26) as u8);
            left = (left - 1) / 26;
        }
        format!("{}{}", String::from_utf8_lossy(&letters), self.line)
    }

    /// What stands at the place.
    fn found(&self) -> &[u8] {
        &self.found[..self.length]
    }

    /// The same in words.
    fn told(&self) -> String {
        match self.found() {
            [] => "its end".to_string(),
            b" " => "a space".to_string(),
            b"\t" => "a tab".to_string(),
            b"\n" => "the line's end".to_string(),
            b"\r" => "a carriage return".to_string(),
            b"\xef\xbb\xbf" => "a byte order mark".to_string(),
            &[byte] if !byte.is_ascii_graphic() => format!("the byte 0x{byte:02x}"),
            character => format!("`{}`", Text(character)),
        }
    }
}

/// The bytes of the character that bytes begin with, or their first one where they begin with none.
fn first_character(bytes: &[u8]) -> &[u8] {
    let front = &bytes[..bytes.len().min(4)];
    let chunk = front.utf8_chunks().next();
    let character = chunk.and_then(|chunk| chunk.valid().chars().next());
    let length = character.map_or(1, char::len_utf8);
    &front[..length.min(front.len())]
}

impl fmt::Display for BadText {
    fn fmt(&self, formatter: &mut fmt::Formatter<'_>) -> fmt::Result {
        let (line, column, cell, told) = (self.line, self.column, self.cell(), self.told());
        write!(
            formatter,
            "line {line}, column {column}, cell {cell}: {told}; "
        )?;
        formatter.write_str(match self.wanted {
            Wanted::More => "every line ends in a line feed, the last one too",
            Wanted::LineFeed => "save it with line feeds alone at the ends of lines",
            Wanted::NoMark => "save it as UTF-8 without a mark at its front",
            Wanted::NoQuotes => "save it without quotation marks around values",
            Wanted::NoTab => "tabs stand between two values alone: take this one away",
            Wanted::Line => "a line begins with a column's number, or is `#` alone, or empty",
            Wanted::LineEnd => "nothing stands behind the `#` of a null row",
            Wanted::Value => "a value begins with its column's number",
            Wanted::Colon => {
                "a column's number is at most 65535, without a zero before it, and a colon follows"
            }
            Wanted::Letter => {
                "behind the colon stands one of n i u d b s a c, with `!` before it for an aggregate"
            }
            Wanted::ValueEnd => "the value is whole: a tab or the line's end follows",
            Wanted::Digit => "a number is 16 digits, 0 to 9 and a to f",
            Wanted::Truth => "a boolean is fifteen times 0, and then 0 or 1",
            Wanted::Escape => {
                "% begins an escape: two digits, 0 to 9 and A to F, of a byte that is not printable, or 25 for % \
                 itself; all other bytes stand for themselves"
            }
            Wanted::Byte => {
                formatter.write_str("write it as ")?;
                let mut bytes = self.found().iter();
                return bytes.try_for_each(|byte| write!(formatter, "%{byte:02X}"));
            }
        })
    }
}
