//! Reading rowsets, with tables that are kept or made anew.

use super::{
    ALIGNMENT, MAX_ROWS_PER_ROWSET, MAX_VALUES_PER_ROW, NULL_ROW_MARKER, Rowset, WIDTH, WireError,
};
use crate::sys;
use crate::table::{self, count};
use std::borrow::Cow;

/// The least bytes of a value that is not null: its header and one word.
const SCALAR: usize = 2 * ALIGNMENT;

/// Reads rowsets, and keeps its tables from one to the next.
///
/// The tables have 8 bytes for each row and 40 for each value of the largest rowset that was read: at
/// most five times its bytes, where every value is Null. For an input that is refused no more is
/// reserved than two and a half times its bytes. At most twice as much is held, so that a table need
/// not grow again and again. [`Decoder::memory`] says what is held, [`Decoder::shrink_to`] gives it
/// back.
#[derive(Debug, Clone, Default)]
pub struct Decoder {
    rows: Vec<u64>,
    values: Vec<u64>,
}

impl Decoder {
    /// A decoder without tables yet.
    pub const fn new() -> Self {
        Self {
            rows: Vec::new(),
            values: Vec::new(),
        }
    }

    /// Reads the rowset that `input` is, all of it.
    pub fn decode_rowset<'a>(&'a mut self, input: &'a [u8]) -> Result<Rowset<'a>, WireError> {
        let (rows, values) = self.read(input)?;
        Ok(Rowset {
            input,
            rows: Cow::Borrowed(self.rows.get(..rows).unwrap_or_default()),
            values: Cow::Borrowed(self.values.get(..values).unwrap_or_default()),
        })
    }

    /// How many bytes of memory the tables hold.
    pub fn memory(&self) -> usize {
        table::memory(&self.rows).saturating_add(table::memory(&self.values))
    }

    /// Gives back the memory beyond that for `rows` rows and `values` values.
    pub fn shrink_to(&mut self, rows: usize, values: usize) {
        table::shrink(&mut self.rows, rows);
        table::shrink(&mut self.values, values.saturating_mul(WIDTH));
    }

    /// How many words of each table were filled.
    fn read(&mut self, input: &[u8]) -> Result<(usize, usize), WireError> {
        let guess = Guess::of(input);
        // Where there is no memory for them, 17 says so below.
        table::grow(&mut self.rows, guess.rows);
        table::grow(&mut self.values, guess.values.saturating_mul(WIDTH));
        let mut outcome = sys::decode_rowset(input, &mut self.rows, &mut self.values);
        let [which, needed, ..] = outcome.values;
        if (outcome.number, which) == (17, 3)
            && table::grow(&mut self.values, count(needed).saturating_mul(WIDTH))
        {
            outcome = sys::decode_rowset(input, &mut self.rows, &mut self.values);
        }
        if outcome.kind != sys::ACCEPTED {
            return Err(WireError::of(&outcome));
        }
        let [rows, values, ..] = outcome.values;
        Ok((count(rows), count(values).saturating_mul(WIDTH)))
    }
}

/// How much room to begin with: all rows that are declared, and values as if every row were like
/// the first that is not null; within what the library accepts, and what the input has bytes for.
pub(super) struct Guess {
    pub(super) rows: usize,
    pub(super) values: usize,
}

impl Guess {
    /// How many null rows it looks past.
    const NULLS: usize = 64;

    pub(super) fn of(input: &[u8]) -> Self {
        let mut words = input
            .chunks_exact(ALIGNMENT)
            .map(|word| word.try_into().map_or(0, u64::from_le_bytes));
        let declared = words.next().unwrap_or(0);
        let after = input.len() / ALIGNMENT;
        // Each row has a word of its own behind the first.
        if declared > MAX_ROWS_PER_ROWSET || count(declared) >= after.max(1) {
            return Self { rows: 0, values: 0 };
        }
        let rows = count(declared);
        let like = words
            .take(rows.min(Self::NULLS))
            .find(|&word| word != NULL_ROW_MARKER)
            .filter(|&word| word <= MAX_VALUES_PER_ROW)
            .unwrap_or(0);
        let bytes = input.len().saturating_sub((1 + rows) * ALIGNMENT);
        Self {
            rows,
            values: rows.saturating_mul(count(like)).min(bytes / SCALAR),
        }
    }
}

/// Reads a rowset as [`Decoder::decode_rowset`] does, with tables of its own: the rowset borrows
/// `input` alone.
pub fn decode_rowset(input: &[u8]) -> Result<Rowset<'_>, WireError> {
    let mut decoder = Decoder::new();
    let (rows, values) = decoder.read(input)?;
    decoder.rows.truncate(rows);
    decoder.values.truncate(values);
    Ok(Rowset {
        input,
        rows: Cow::Owned(decoder.rows),
        values: Cow::Owned(decoder.values),
    })
}

/// Whether `input` is a rowset in the one form that is written: flags and booleans 0 or 1, unused
/// length words (a Null's too) and padding 0, at most 2^30 bytes. It says yes exactly where writing
/// the rows read from `input` gives `input`, so two such inputs with the same rows are equal.
pub fn is_plain(input: &[u8]) -> bool {
    sys::is_plain(input)
}
