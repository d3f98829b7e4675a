//! Rowsets: the rows that a packet's part carries.
//!
//! A lookup answers one row for each key, a null row where it found none. So a null row is a row:
//! [`Rowset::rows`] yields it as `None`, in its place, and nothing here steps over one unasked. To
//! flatten the rows would drop the null ones, and each later row would answer for another key.

mod owned;
mod read;
#[cfg(test)]
mod tests;
mod write;

pub use owned::OwnedRowset;
pub use read::{Decoder, decode_rowset, is_plain};
pub use write::{Encoder, encode_rowset, encode_rowset_into, encoded_size};
pub(crate) use write::{accepted, with_tables};

use crate::packet::MAX_PART_SIZE;
use crate::sys::Outcome;
use crate::table::{self, count};
use crate::yson::{Yson, YsonError};
use std::borrow::Cow;
use std::fmt;

/// The bytes that everything in a rowset is a multiple of.
pub const ALIGNMENT: usize = 8;

/// The value count that marks a null row.
pub const NULL_ROW_MARKER: u64 = u64::MAX;

/// The most rows of a rowset.
pub const MAX_ROWS_PER_ROWSET: u64 = 5 * 1024 * 1024;

/// The most values of a row.
pub const MAX_VALUES_PER_ROW: u64 = 1024;

/// The most bytes of a string, an any or a composite.
pub const MAX_VALUE_LENGTH: u32 = 16 * 1024 * 1024;

/// The most bytes of a rowset, which is one part.
pub const MAX_ROWSET_SIZE: usize = MAX_PART_SIZE as usize;

/// The words of a value in a table.
pub(crate) const WIDTH: usize = 5;

/// The bytes of a value in a table.
const ENTRY: usize = WIDTH * size_of::<u64>();

/// What a value is.
#[derive(Debug, Clone, Copy, PartialEq, Eq, Hash)]
#[repr(u8)]
pub enum ValueType {
    /// No value.
    Null = 0x02,
    /// A signed number.
    Int64 = 0x03,
    /// An unsigned number.
    Uint64 = 0x04,
    /// A floating-point number.
    Double = 0x05,
    /// A truth value.
    Boolean = 0x06,
    /// Bytes.
    String = 0x10,
    /// YSON of any shape.
    Any = 0x11,
    /// YSON of a composite column.
    Composite = 0x12,
}

impl ValueType {
    /// Whether the payload is bytes with their length, and not one word.
    pub fn is_string_like(self) -> bool {
        matches!(self, Self::String | Self::Any | Self::Composite)
    }
}

/// A value of a row.
#[derive(Debug, Clone, Copy, PartialEq)]
pub enum Value<'a> {
    /// No value.
    Null,
    /// A signed number.
    Int64(i64),
    /// An unsigned number.
    Uint64(u64),
    /// A floating-point number, with the bits that were sent.
    Double(f64),
    /// A truth value.
    Boolean(bool),
    /// Bytes.
    String(&'a [u8]),
    /// YSON of any shape.
    Any(&'a [u8]),
    /// YSON of a composite column.
    Composite(&'a [u8]),
}

impl<'a> Value<'a> {
    /// What it is.
    pub fn value_type(&self) -> ValueType {
        match self {
            Self::Null => ValueType::Null,
            Self::Int64(_) => ValueType::Int64,
            Self::Uint64(_) => ValueType::Uint64,
            Self::Double(_) => ValueType::Double,
            Self::Boolean(_) => ValueType::Boolean,
            Self::String(_) => ValueType::String,
            Self::Any(_) => ValueType::Any,
            Self::Composite(_) => ValueType::Composite,
        }
    }

    /// The bytes of a string, an any or a composite.
    pub fn bytes(&self) -> Option<&'a [u8]> {
        match self {
            Self::String(bytes) | Self::Any(bytes) | Self::Composite(bytes) => Some(bytes),
            _ => None,
        }
    }

    /// The checked view of an any or a composite: its node, with the items of its outer map, or where its
    /// bytes fail. Reading a rowset does not look into them.
    pub fn yson(&self) -> Option<Result<Yson<'a>, YsonError>> {
        match self {
            Self::Any(bytes) | Self::Composite(bytes) => Some(Yson::read(bytes)),
            _ => None,
        }
    }

    /// The bytes that it takes in a rowset, its header among them.
    pub fn wire_size(&self) -> usize {
        let payload = match self {
            Self::Null => 0,
            Self::String(bytes) | Self::Any(bytes) | Self::Composite(bytes) => {
                bytes.len().next_multiple_of(ALIGNMENT)
            }
            _ => ALIGNMENT,
        };
        ALIGNMENT + payload
    }
}

/// A value beside its column.
#[derive(Debug, Clone, Copy, PartialEq)]
pub struct UnversionedValue<'a> {
    /// The column, as an index into the rowset's table of names.
    pub id: u16,
    /// Set on values of aggregate columns.
    pub aggregate: bool,
    /// The value.
    pub value: Value<'a>,
}

impl<'a> UnversionedValue<'a> {
    /// A value that is no aggregate.
    pub const fn new(id: u16, value: Value<'a>) -> Self {
        Self {
            id,
            aggregate: false,
            value,
        }
    }

    /// The bytes that it takes in a rowset.
    pub fn wire_size(&self) -> usize {
        self.value.wire_size()
    }

    /// The value's words in a table, for bytes that begin at `offset`.
    #[inline]
    fn words(&self, offset: usize) -> [u64; WIDTH] {
        let blob = |bytes: &[u8]| (offset as u64, bytes.len() as u64);
        let (word, length) = match self.value {
            Value::Null => (0, 0),
            Value::Int64(number) => (number as u64, 0),
            Value::Uint64(number) => (number, 0),
            Value::Double(number) => (number.to_bits(), 0),
            Value::Boolean(truth) => (u64::from(truth), 0),
            Value::String(bytes) | Value::Any(bytes) | Value::Composite(bytes) => blob(bytes),
        };
        let kind = self.value.value_type() as u64;
        [
            u64::from(self.id),
            kind,
            u64::from(self.aggregate),
            word,
            length,
        ]
    }

    /// The value that five words of a table name, over the bytes that were read.
    fn of(input: &'a [u8], words: &[u64]) -> Option<Self> {
        let &[id, kind, aggregate, word, length] = words else {
            return None;
        };
        let bytes = || {
            let start = count(word);
            table::stretch(input, start..start.saturating_add(count(length)))
        };
        Some(Self {
            id: id as u16,
            aggregate: aggregate != 0,
            value: match kind {
                0x03 => Value::Int64(word as i64),
                0x04 => Value::Uint64(word),
                0x05 => Value::Double(f64::from_bits(word)),
                0x06 => Value::Boolean(word != 0),
                0x10 => Value::String(bytes()),
                0x11 => Value::Any(bytes()),
                0x12 => Value::Composite(bytes()),
                // Null: any other type is refused.
                _ => Value::Null,
            },
        })
    }
}

/// The rows that were read, over the bytes that they were read from.
#[derive(Clone)]
pub struct Rowset<'a> {
    input: &'a [u8],
    rows: Cow<'a, [u64]>,
    values: Cow<'a, [u64]>,
}

impl<'a> Rowset<'a> {
    /// How many rows there are, null ones among them.
    pub fn len(&self) -> usize {
        self.rows.len()
    }

    /// Whether there is no row, not even a null one.
    pub fn is_empty(&self) -> bool {
        self.rows.is_empty()
    }

    /// The area, the row table and the value table.
    pub(crate) fn tables(&self) -> (&[u8], &[u64], &[u64]) {
        (self.input, &self.rows, &self.values)
    }

    /// All rows in their order: `None` is a null row, `Some` of no values an empty one. `flatten` on
    /// it would drop the null rows, and the rows behind them would stand under another key.
    pub fn rows(&self) -> Rows<'_, 'a> {
        Rows {
            input: self.input,
            rows: &self.rows,
            values: &self.values,
        }
    }
}

impl fmt::Debug for Rowset<'_> {
    fn fmt(&self, formatter: &mut fmt::Formatter<'_>) -> fmt::Result {
        formatter.debug_list().entries(self.rows()).finish()
    }
}

impl PartialEq for Rowset<'_> {
    fn eq(&self, other: &Self) -> bool {
        self.rows().eq(other.rows())
    }
}

impl<'t, 'a> IntoIterator for &'t Rowset<'a> {
    type Item = MaybeRow<'t, 'a>;
    type IntoIter = Rows<'t, 'a>;

    fn into_iter(self) -> Self::IntoIter {
        self.rows()
    }
}

/// A row that may be null: `None` is a row that was not found, which is not one without values.
pub type MaybeRow<'t, 'a> = Option<Row<'t, 'a>>;

/// The iterator of [`Rowset::rows`].
#[derive(Debug, Clone)]
pub struct Rows<'t, 'a> {
    input: &'a [u8],
    rows: &'t [u64],
    values: &'t [u64],
}

impl<'t, 'a> Iterator for Rows<'t, 'a> {
    type Item = MaybeRow<'t, 'a>;

    fn next(&mut self) -> Option<Self::Item> {
        let (&row, rest) = self.rows.split_first()?;
        self.rows = rest;
        if row == NULL_ROW_MARKER {
            return Some(None);
        }
        // The rows' counts sum to the values, so the split is where the count says.
        let words = count(row).saturating_mul(WIDTH).min(self.values.len());
        let (words, rest) = self.values.split_at(words);
        self.values = rest;
        Some(Some(Row {
            input: self.input,
            words,
        }))
    }

    fn size_hint(&self) -> (usize, Option<usize>) {
        (self.rows.len(), Some(self.rows.len()))
    }
}

impl ExactSizeIterator for Rows<'_, '_> {}

/// A row that is there, with its values.
#[derive(Clone, Copy)]
pub struct Row<'t, 'a> {
    input: &'a [u8],
    words: &'t [u64],
}

impl<'t, 'a> Row<'t, 'a> {
    /// How many values it has.
    pub fn len(&self) -> usize {
        self.words.len() / WIDTH
    }

    /// Whether it has no values, which is not to be null.
    pub fn is_empty(&self) -> bool {
        self.words.is_empty()
    }

    /// Value `index` in the order of the row, where there is one.
    pub fn get(&self, index: usize) -> Option<UnversionedValue<'a>> {
        let at = index.checked_mul(WIDTH)?;
        let words = self.words.get(at..at.checked_add(WIDTH)?)?;
        UnversionedValue::of(self.input, words)
    }

    /// The first value of column `id`, where there is one.
    pub fn column(&self, id: u16) -> Option<UnversionedValue<'a>> {
        self.values().find(|value| value.id == id)
    }

    /// The values, in the order of the row.
    pub fn values(
        &self,
    ) -> impl ExactSizeIterator<Item = UnversionedValue<'a>> + Clone + use<'t, 'a> {
        let input = self.input;
        self.words.chunks_exact(WIDTH).map(move |words| {
            // A chunk has the words of one value, so the other arm does not arise.
            UnversionedValue::of(input, words).unwrap_or(UnversionedValue::new(0, Value::Null))
        })
    }
}

impl fmt::Debug for Row<'_, '_> {
    fn fmt(&self, formatter: &mut fmt::Formatter<'_>) -> fmt::Result {
        formatter.debug_list().entries(self.values()).finish()
    }
}

impl PartialEq for Row<'_, '_> {
    fn eq(&self, other: &Self) -> bool {
        self.values().eq(other.values())
    }
}

/// Why a rowset is refused.
#[derive(Debug, Clone, Copy, PartialEq, Eq)]
#[non_exhaustive]
pub enum WireError {
    /// It ends too early.
    Truncated {
        /// Where the bytes were looked for.
        offset: usize,
        /// How many are missing there.
        needed: usize,
    },
    /// It has more than [`MAX_ROWS_PER_ROWSET`] rows.
    TooManyRows {
        /// How many.
        count: u64,
    },
    /// A row has more than [`MAX_VALUES_PER_ROW`] values.
    TooManyValues {
        /// Which row, null rows counted.
        row: usize,
        /// How many values.
        count: u64,
    },
    /// A value has more than [`MAX_VALUE_LENGTH`] bytes.
    ValueTooLong {
        /// How many, 2^32-1 standing for more.
        length: u32,
    },
    /// It has more than [`MAX_ROWSET_SIZE`] bytes.
    RowsetTooLarge {
        /// Its bytes up to where they are too many.
        size: usize,
    },
    /// There is no such type of value.
    UnknownValueType(u8),
    /// So many bytes come after the last row.
    TrailingBytes(usize),
    /// There was no memory for the tables or for the output.
    AllocationFailed {
        /// How many bytes were wanted.
        size: usize,
    },
    /// A number that rowsets are not refused by: it does not arise.
    Other(u64),
}

impl WireError {
    /// The refusal's number.
    pub const fn code(&self) -> u32 {
        match self {
            Self::Truncated { .. } => 9,
            Self::TooManyRows { .. } => 10,
            Self::TooManyValues { .. } => 11,
            Self::ValueTooLong { .. } => 12,
            Self::RowsetTooLarge { .. } => 13,
            Self::UnknownValueType(_) => 14,
            Self::TrailingBytes(_) => 15,
            Self::AllocationFailed { .. } => 17,
            Self::Other(number) => *number as u32,
        }
    }

    pub(crate) fn of(outcome: &Outcome) -> Self {
        let [a, b, ..] = outcome.values;
        match outcome.number {
            9 => Self::Truncated {
                offset: count(a),
                needed: count(b),
            },
            10 => Self::TooManyRows { count: a },
            11 => Self::TooManyValues {
                row: count(a),
                count: b,
            },
            12 => Self::ValueTooLong { length: a as u32 },
            13 => Self::RowsetTooLarge { size: count(a) },
            14 => Self::UnknownValueType(a as u8),
            15 => Self::TrailingBytes(count(a)),
            17 => Self::no_room(count(b), [8, ENTRY, 1][count(a).clamp(2, 4) - 2]),
            number => Self::Other(number),
        }
    }

    pub(crate) fn no_room(entries: usize, bytes: usize) -> Self {
        Self::AllocationFailed {
            size: entries.saturating_mul(bytes),
        }
    }
}

impl fmt::Display for WireError {
    fn fmt(&self, formatter: &mut fmt::Formatter<'_>) -> fmt::Result {
        match self {
            Self::Truncated { offset, needed } => write!(
                formatter,
                "rowset is truncated: need {needed} more bytes at offset {offset}"
            ),
            Self::TooManyRows { count } => write!(
                formatter,
                "rowset declares {count} rows, more than the {MAX_ROWS_PER_ROWSET} allowed"
            ),
            Self::TooManyValues { row, count } => write!(
                formatter,
                "row {row} declares {count} values, more than the {MAX_VALUES_PER_ROW} allowed"
            ),
            Self::ValueTooLong { length } => write!(
                formatter,
                "value is {length} bytes, more than the {MAX_VALUE_LENGTH} allowed"
            ),
            Self::RowsetTooLarge { size } => write!(
                formatter,
                "rowset is {size} bytes, more than the {MAX_ROWSET_SIZE} of an attachment"
            ),
            Self::UnknownValueType(code) => write!(formatter, "unknown value type {code:#04x}"),
            Self::TrailingBytes(bytes) => {
                write!(formatter, "{bytes} bytes are left over after the last row")
            }
            Self::AllocationFailed { size } => {
                write!(formatter, "could not reserve {size} bytes for a rowset")
            }
            Self::Other(number) => write!(formatter, "rowset refused by number {number}"),
        }
    }
}

impl std::error::Error for WireError {}
