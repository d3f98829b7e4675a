//! Error messages from the cluster: a `TError`, as a failed call answers with one.
//!
//! [`TError::read`] takes the protobuf message that bytes are. A `TError` has its errors in
//! pre-order, each before its inner ones, with code, depth, text and attributes lent from those
//! bytes, and prints as a person reads it. [`encode`] writes errors of the caller's.
//!
//! ```
//! use cablefinch::error::{self, Attribute, NewError, TError};
//!
//! let path = [Attribute { key: b"path", value: b"\x01\x0e//terms" }];
//! let bytes = error::encode(&[
//!     NewError { depth: 1, code: 1, text: b"Lookup failed", attributes: &[] },
//!     NewError { depth: 2, code: 500, text: b"No such table", attributes: &path },
//! ])?;
//!
//! let error = TError::read(&bytes)?;
//! assert_eq!(error.outermost().text, b"Lookup failed");
//! assert_eq!(error.to_string(), "\
//! error 1: Lookup failed
//!     error 500: No such table
//!         path = \"//terms\"");
//!
//! // Cut short, it says where.
//! let refusal = TError::read(&bytes[..20]).unwrap_err();
//! assert_eq!((refusal.code(), refusal.place()), (22, Some(17)));
//! # Ok::<(), Box<dyn std::error::Error>>(())
//! ```

#[cfg(test)]
mod tests;
mod write;

pub use write::{NewError, encode, encode_into, encoded_size};

use crate::shown::{Node, Text};
use crate::sys::{self, Outcome};
use crate::table::{self, count};
use std::fmt;

/// The deepest level of errors: the outermost is at 1, an inner error one below its parent.
pub const MAX_DEPTH: usize = 16;

/// An error in a table: code, depth, where the text begins, how long it is.
type ErrorWords = [u64; 4];

/// An attribute in a table: which error's, where the key begins and how long it is, the same of the
/// value.
type AttributeWords = [u64; 5];

/// An error message that was read, over the bytes that it was read from.
///
/// Its tables have 32 bytes for each error and 40 for each attribute. A hostile message has one of them
/// in two bytes, so that twenty times its bytes may be held; [`TError::read_within`] bounds that.
#[derive(Clone, PartialEq, Eq)]
pub struct TError<'a> {
    input: &'a [u8],
    errors: Vec<ErrorWords>,
    /// By error, and the attributes of one in the order of the message.
    attributes: Vec<AttributeWords>,
}

impl<'a> TError<'a> {
    /// Reads the message that `input` is, all of it.
    pub fn read(input: &'a [u8]) -> Result<Self, ErrorRefusal> {
        Self::read_within(input, usize::MAX, usize::MAX)
    }

    /// Reads a message of at most so many errors and attributes. No more memory is taken than for these,
    /// and for bytes that are no message no more than twice their own.
    pub fn read_within(
        input: &'a [u8],
        most_errors: usize,
        most_attributes: usize,
    ) -> Result<Self, ErrorRefusal> {
        let (mut errors, mut attributes) = (Vec::new(), Vec::new());
        // Tables as large as the input, which ordinary messages do not fill; where there is no memory
        // for them, 17 says so below.
        table::grow(&mut errors, guess::<ErrorWords>(input, most_errors));
        table::grow(
            &mut attributes,
            guess::<AttributeWords>(input, most_attributes),
        );
        loop {
            let outcome = sys::error_read(
                input,
                errors.as_flattened_mut(),
                attributes.as_flattened_mut(),
            );
            // 17 tells how much a table needs: each grows once at most.
            let [which, needed, ..] = outcome.values.map(count);
            let grown = match (outcome.number, which) {
                (17, 6) => needed <= most_errors && table::grow(&mut errors, needed),
                (17, 7) => needed <= most_attributes && table::grow(&mut attributes, needed),
                _ => false,
            };
            if grown {
                continue;
            }
            if outcome.kind != sys::ACCEPTED {
                return Err(ErrorRefusal::of(&outcome, most_errors, most_attributes));
            }
            let [error_count, attribute_count, ..] = outcome.values.map(count);
            table::shrink(&mut errors, error_count);
            table::shrink(&mut attributes, attribute_count);
            return Ok(Self {
                input,
                attributes: by_error(attributes, error_count)?,
                errors,
            });
        }
    }

    /// The errors, each before its inner ones; the outermost is the first.
    pub fn errors(
        &self,
    ) -> impl ExactSizeIterator<Item = ErrorEntry<'_, 'a>> + Clone + use<'_, 'a> {
        (0..self.errors.len()).map(|index| self.entry(index))
    }

    /// The outermost error.
    pub fn outermost(&self) -> ErrorEntry<'_, 'a> {
        self.entry(0)
    }

    /// All of the message's bytes.
    pub fn bytes(&self) -> &'a [u8] {
        self.input
    }

    /// How many bytes of memory the tables hold.
    pub fn memory(&self) -> usize {
        table::memory(&self.errors).saturating_add(table::memory(&self.attributes))
    }

    fn entry(&self, index: usize) -> ErrorEntry<'_, 'a> {
        let [code, depth, offset, length] = self.errors.get(index).copied().unwrap_or_default();
        let key = index as u64;
        let from = self.attributes.partition_point(|row| row[0] < key);
        let rows = self.attributes.get(from..).unwrap_or_default();
        let till = rows.partition_point(|row| row[0] == key);
        ErrorEntry {
            code: code as u32 as i32,
            depth: count(depth),
            text: stretch(self.input, offset, length),
            input: self.input,
            rows: rows.get(..till).unwrap_or_default(),
        }
    }
}

/// The room to begin with: as many entries as the input has bytes for, within the most that are taken.
fn guess<Entry>(input: &[u8], most: usize) -> usize {
    (1 + input.len() / size_of::<Entry>()).min(most)
}

/// The stretch of `bytes` that two words of a table name.
fn stretch(bytes: &[u8], offset: u64, length: u64) -> &[u8] {
    let start = count(offset);
    table::stretch(bytes, start..start.saturating_add(count(length)))
}

/// The rows by error, those of one in their order. They stand so already unless a message has its
/// attributes behind an inner error.
fn by_error(rows: Vec<AttributeWords>, errors: usize) -> Result<Vec<AttributeWords>, ErrorRefusal> {
    if rows.is_sorted_by_key(|row| row[0]) {
        return Ok(rows);
    }
    // Where the next row of each error goes.
    let mut places = Vec::new();
    let mut sorted = Vec::new();
    if !table::grow(&mut places, errors.saturating_add(1)) || !table::grow(&mut sorted, rows.len())
    {
        return Err(ErrorRefusal::no_memory::<AttributeWords>(rows.len()));
    }
    for row in &rows {
        if let Some(place) = places.get_mut(count(row[0]).saturating_add(1)) {
            *place += 1;
        }
    }
    let mut sum = 0;
    for place in &mut places {
        sum += *place;
        *place = sum;
    }
    for row in &rows {
        if let Some(place) = places.get_mut(count(row[0])) {
            if let Some(free) = sorted.get_mut(*place) {
                *free = *row;
            }
            *place += 1;
        }
    }
    Ok(sorted)
}

impl fmt::Display for TError<'_> {
    fn fmt(&self, formatter: &mut fmt::Formatter<'_>) -> fmt::Result {
        for (index, error) in self.errors().enumerate() {
            if index > 0 {
                formatter.write_str("\n")?;
            }
            error.fmt(formatter)?;
        }
        Ok(())
    }
}

impl fmt::Debug for TError<'_> {
    fn fmt(&self, formatter: &mut fmt::Formatter<'_>) -> fmt::Result {
        formatter.debug_list().entries(self.errors()).finish()
    }
}

/// An error of a message.
///
/// It prints as its code and text and a line for each attribute, indented by its depth. Control
/// characters and bytes that are no UTF-8 are escaped, so that each is one line.
#[derive(Clone, Copy, PartialEq, Eq)]
pub struct ErrorEntry<'t, 'a> {
    /// What the cluster numbers it by; 0 where the message has none.
    pub code: i32,
    /// How deep it is: 1 for the outermost, at most [`MAX_DEPTH`].
    pub depth: usize,
    /// What it says, which should be UTF-8 and need not be.
    pub text: &'a [u8],
    input: &'a [u8],
    rows: &'t [AttributeWords],
}

impl<'t, 'a> ErrorEntry<'t, 'a> {
    /// Its attributes in the order of the message, equal keys each by itself.
    pub fn attributes(&self) -> impl ExactSizeIterator<Item = Attribute<'a>> + Clone + use<'t, 'a> {
        let input = self.input;
        self.rows.iter().map(
            move |&[_, key, key_length, value, value_length]| Attribute {
                key: stretch(input, key, key_length),
                value: stretch(input, value, value_length),
            },
        )
    }

    /// The value of the first attribute with that key, where there is one.
    pub fn get(&self, key: &[u8]) -> Option<&'a [u8]> {
        self.attributes()
            .find(|attribute| attribute.key == key)
            .map(|attribute| attribute.value)
    }
}

impl fmt::Display for ErrorEntry<'_, '_> {
    fn fmt(&self, formatter: &mut fmt::Formatter<'_>) -> fmt::Result {
        const STEP: usize = 4;
        let indent = STEP * self.depth.clamp(1, MAX_DEPTH);
        let before = indent - STEP;
        write!(formatter, "{:before$}error {}", "", self.code)?;
        if !self.text.is_empty() {
            write!(formatter, ": {}", Text(self.text))?;
        }
        for Attribute { key, value } in self.attributes() {
            let (key, value) = (Text(key), Node(value));
            write!(formatter, "\n{:indent$}{key} = {value}", "")?;
        }
        Ok(())
    }
}

impl fmt::Debug for ErrorEntry<'_, '_> {
    fn fmt(&self, formatter: &mut fmt::Formatter<'_>) -> fmt::Result {
        formatter
            .debug_struct("ErrorEntry")
            .field("code", &self.code)
            .field("depth", &self.depth)
            .field("text", &self.text)
            .field("attributes", &self.attributes().collect::<Vec<_>>())
            .finish()
    }
}

/// An attribute of an error.
#[derive(Debug, Clone, Copy, PartialEq, Eq)]
pub struct Attribute<'a> {
    /// Its name, which should be UTF-8 and need not be.
    pub key: &'a [u8],
    /// What it is, which the cluster writes as YSON; reading does not look into it.
    pub value: &'a [u8],
}

/// Why bytes are no error message, or errors cannot be written.
#[derive(Debug, Clone, Copy, PartialEq, Eq)]
#[non_exhaustive]
pub enum ErrorRefusal {
    /// A field is not whole, or may not be taken there.
    BadMessage {
        /// Where the field begins.
        place: usize,
    },
    /// An inner error would be below [`MAX_DEPTH`].
    ErrorsTooDeep {
        /// Where its field begins.
        place: usize,
    },
    /// Errors that are no message.
    BadTable {
        /// 2: there is none; 3: one has a depth that may not stand there.
        rule: u64,
        /// Which one.
        position: usize,
    },
    /// There are more errors than [`TError::read_within`] was to take.
    TooManyErrors {
        /// How many.
        count: usize,
        /// The most that were to be taken.
        limit: usize,
    },
    /// There are more attributes than [`TError::read_within`] was to take.
    TooManyAttributes {
        /// How many.
        count: usize,
        /// The most that were to be taken.
        limit: usize,
    },
    /// There was no memory for the tables or for the output.
    AllocationFailed {
        /// How many bytes were wanted.
        size: usize,
    },
    /// A number that errors are not refused by: it does not arise.
    Other(u64),
}

impl ErrorRefusal {
    /// The refusal's number.
    pub const fn code(&self) -> u32 {
        match self {
            Self::TooManyErrors { .. }
            | Self::TooManyAttributes { .. }
            | Self::AllocationFailed { .. } => 17,
            Self::BadTable { .. } => 18,
            Self::BadMessage { .. } => 22,
            Self::ErrorsTooDeep { .. } => 23,
            Self::Other(number) => *number as u32,
        }
    }

    /// Where the bytes fail, counted from 0.
    pub const fn place(&self) -> Option<usize> {
        match self {
            Self::BadMessage { place } | Self::ErrorsTooDeep { place } => Some(*place),
            _ => None,
        }
    }

    fn of(outcome: &Outcome, most_errors: usize, most_attributes: usize) -> Self {
        let [a, b, ..] = outcome.values.map(count);
        match (outcome.number, a) {
            (17, 6) if b > most_errors => Self::TooManyErrors {
                count: b,
                limit: most_errors,
            },
            (17, 7) if b > most_attributes => Self::TooManyAttributes {
                count: b,
                limit: most_attributes,
            },
            (17, 6) => Self::no_memory::<ErrorWords>(b),
            (17, 7) => Self::no_memory::<AttributeWords>(b),
            (17, _) => Self::no_memory::<u8>(b),
            (18, _) => Self::BadTable {
                rule: outcome.values[0],
                position: b,
            },
            (22, place) => Self::BadMessage { place },
            (23, place) => Self::ErrorsTooDeep { place },
            (number, _) => Self::Other(number),
        }
    }

    fn no_memory<Entry>(entries: usize) -> Self {
        Self::AllocationFailed {
            size: entries.saturating_mul(size_of::<Entry>()),
        }
    }
}

impl fmt::Display for ErrorRefusal {
    fn fmt(&self, formatter: &mut fmt::Formatter<'_>) -> fmt::Result {
        match self {
            Self::BadMessage { place } => {
                write!(
                    formatter,
                    "not an error message: no field may stand so at byte {place}"
                )
            }
            Self::ErrorsTooDeep { place } => {
                write!(
                    formatter,
                    "an error below the {MAX_DEPTH} levels allowed at byte {place}"
                )
            }
            Self::BadTable { rule: 2, .. } => formatter.write_str("no error to write"),
            Self::BadTable { position, .. } => {
                write!(formatter, "error {position} cannot stand at its depth")
            }
            Self::TooManyErrors { count, limit } => {
                write!(formatter, "{count} errors, more than the {limit} wanted")
            }
            Self::TooManyAttributes { count, limit } => {
                write!(
                    formatter,
                    "{count} attributes, more than the {limit} wanted"
                )
            }
            Self::AllocationFailed { size } => {
                write!(formatter, "could not reserve {size} bytes for errors")
            }
            Self::Other(number) => write!(formatter, "errors refused by number {number}"),
        }
    }
}

impl std::error::Error for ErrorRefusal {}
