//! Writing rowsets. The library takes all strings from one area of bytes, so they are copied into one
//! first; those of a decoded rowset are not.

use super::{
    ALIGNMENT, MAX_ROWS_PER_ROWSET, MAX_ROWSET_SIZE, MAX_VALUE_LENGTH, MAX_VALUES_PER_ROW,
    NULL_ROW_MARKER, Rowset, UnversionedValue, WIDTH, WireError,
};
use crate::sys::{self, Outcome};
use crate::table::{self, count};

/// The tables of a rowset and the area that its strings lie in, kept from one rowset to the next.
#[derive(Debug, Clone, Default)]
struct Pieces {
    area: Vec<u8>,
    rows: Vec<u64>,
    values: Vec<u64>,
}

/// What of a rowset goes to the library, with the rowset's size.
struct Laid<'p> {
    area: &'p [u8],
    rows: &'p [u64],
    values: &'p [u64],
    size: usize,
}

/// What rows take, counted without a copy.
struct Measure {
    size: usize,
    /// The bytes of all strings.
    bytes: usize,
    values: usize,
    /// Whether every limit of the library is kept.
    within: bool,
}

impl Measure {
    fn of<'a, R>(rows: &[Option<R>]) -> Self
    where
        R: AsRef<[UnversionedValue<'a>]>,
    {
        let mut measure = Self {
            size: ALIGNMENT,
            bytes: 0,
            values: 0,
            within: rows.len() as u64 <= MAX_ROWS_PER_ROWSET,
        };
        for row in rows {
            measure.size = measure.size.saturating_add(ALIGNMENT);
            let Some(row) = row else { continue };
            let row = row.as_ref();
            measure.values = measure.values.saturating_add(row.len());
            measure.within &= row.len() as u64 <= MAX_VALUES_PER_ROW;
            for value in row {
                let length = value.value.bytes().map_or(0, <[u8]>::len);
                measure.within &= length <= MAX_VALUE_LENGTH as usize;
                measure.bytes = measure.bytes.saturating_add(length);
                measure.size = measure.size.saturating_add(value.wire_size());
            }
        }
        measure.within &= measure.size <= MAX_ROWSET_SIZE;
        measure
    }
}

/// Reserves room for `more` elements, or says how many bytes that would have been.
fn reserve<T>(table: &mut Vec<T>, more: usize) -> Result<(), WireError> {
    let reserved = table.try_reserve(more);
    reserved.map_err(|_| WireError::no_room(more, size_of::<T>()))
}

impl Pieces {
    const fn new() -> Self {
        Self {
            area: Vec::new(),
            rows: Vec::new(),
            values: Vec::new(),
        }
    }

    /// Lists the rows, each string where `place` says that it lies.
    fn list<'a, R>(
        &mut self,
        rows: &[Option<R>],
        values: usize,
        mut place: impl FnMut(&mut Vec<u8>, &'a [u8]) -> usize,
    ) -> Result<(), WireError>
    where
        R: AsRef<[UnversionedValue<'a>]>,
    {
        self.rows.clear();
        self.values.clear();
        self.area.clear();
        reserve(&mut self.rows, rows.len())?;
        reserve(&mut self.values, values.saturating_mul(WIDTH))?;
        for row in rows {
            let Some(row) = row else {
                self.rows.push(NULL_ROW_MARKER);
                continue;
            };
            let row = row.as_ref();
            self.rows.push(row.len() as u64);
            for value in row {
                let offset = match value.value.bytes() {
                    Some(bytes) => place(&mut self.area, bytes),
                    None => 0,
                };
                self.values.extend_from_slice(&value.words(offset));
            }
        }
        Ok(())
    }

    /// The library's refusal of rows that break a limit: their strings with true lengths over the
    /// longest, so that nothing is copied.
    fn refuse<'a, R>(&mut self, rows: &[Option<R>], values: usize) -> Result<usize, WireError>
    where
        R: AsRef<[UnversionedValue<'a>]>,
    {
        let mut longest: &[u8] = &[];
        self.list(rows, values, |_, bytes| {
            if bytes.len() > longest.len() {
                longest = bytes;
            }
            0
        })?;
        let outcome = sys::rowset_size(longest, &self.rows, &self.values);
        accepted(outcome).map(|outcome| count(outcome.count))
    }

    /// Lists the rows and lays their strings one after another into the area. Rows that the library
    /// would refuse are refused before anything is copied.
    fn lay<'a, R>(&mut self, rows: &[Option<R>]) -> Result<Laid<'_>, WireError>
    where
        R: AsRef<[UnversionedValue<'a>]>,
    {
        let measure = Measure::of(rows);
        if !measure.within {
            self.refuse(rows, measure.values)?;
        }
        self.area.clear();
        reserve(&mut self.area, measure.bytes)?;
        self.list(rows, measure.values, |area, bytes| {
            let offset = area.len();
            area.extend_from_slice(bytes);
            offset
        })?;
        Ok(Laid {
            area: &self.area,
            rows: &self.rows,
            values: &self.values,
            size: measure.size,
        })
    }
}

pub(crate) fn accepted(outcome: Outcome) -> Result<Outcome, WireError> {
    match outcome.kind {
        sys::ACCEPTED => Ok(outcome),
        _ => Err(WireError::of(&outcome)),
    }
}

impl Laid<'_> {
    /// Writes the rowset to the front of `room`, which is lent by its exact size.
    fn write(&self, room: &mut [u8]) -> Result<(), WireError> {
        accepted(sys::encode_rowset(self.area, self.rows, self.values, room)).map(|_| ())
    }

    /// Appends the rowset's bytes; a refusal leaves `out` as it was.
    fn append(&self, out: &mut Vec<u8>) -> Result<(), WireError> {
        reserve(out, self.size)?;
        let start = out.len();
        out.resize(start + self.size, 0);
        let written = self.write(out.get_mut(start..).unwrap_or_default());
        if written.is_err() {
            out.truncate(start);
        }
        written
    }
}

/// Hands the area and the tables of some rows to `work`, and the answer back.
pub(crate) fn with_tables<'a, R, T>(
    rows: &[Option<R>],
    work: impl FnOnce((&[u8], &[u64], &[u64])) -> Result<T, WireError>,
) -> Result<T, WireError>
where
    R: AsRef<[UnversionedValue<'a>]>,
{
    let mut pieces = Pieces::new();
    let Laid {
        area, rows, values, ..
    } = pieces.lay(rows)?;
    work((area, rows, values))
}

impl Rowset<'_> {
    /// The rowset in its plain form, without a copy of its bytes in between.
    pub fn encode(&self) -> Result<Vec<u8>, WireError> {
        let size = accepted(sys::rowset_size(self.input, &self.rows, &self.values))?;
        let mut out = Vec::new();
        let laid = Laid {
            area: self.input,
            rows: &self.rows,
            values: &self.values,
            size: count(size.count),
        };
        laid.append(&mut out)?;
        Ok(out)
    }
}

/// Writes rowsets, and keeps its tables and its output from one to the next.
///
/// It holds at most twice what the largest rowset took: its bytes, a copy of its strings, 8 bytes for
/// each row and 40 for each value. [`Encoder::shrink_to`] gives that back.
#[derive(Debug, Clone, Default)]
pub struct Encoder {
    pieces: Pieces,
    out: Vec<u8>,
}

impl Encoder {
    /// An encoder without tables yet.
    pub const fn new() -> Self {
        Self {
            pieces: Pieces::new(),
            out: Vec::new(),
        }
    }

    /// The bytes of a rowset, which lie in the encoder until its next call: `None` is written as a
    /// null row, `Some` of no values as an empty one.
    pub fn encode_rowset<'a, R>(&mut self, rows: &[Option<R>]) -> Result<&[u8], WireError>
    where
        R: AsRef<[UnversionedValue<'a>]>,
    {
        let laid = self.pieces.lay(rows)?;
        if !table::grow(&mut self.out, laid.size) {
            return Err(WireError::no_room(laid.size, 1));
        }
        let room = self.out.get_mut(..laid.size).unwrap_or_default();
        laid.write(room)?;
        Ok(room)
    }

    /// Appends the bytes of a rowset to `out`, which a refusal leaves as it was.
    pub fn encode_rowset_into<'a, R>(
        &mut self,
        rows: &[Option<R>],
        out: &mut Vec<u8>,
    ) -> Result<(), WireError>
    where
        R: AsRef<[UnversionedValue<'a>]>,
    {
        self.pieces.lay(rows)?.append(out)
    }

    /// How many bytes of memory are held.
    pub fn memory(&self) -> usize {
        table::memory(&self.pieces.area)
            .saturating_add(table::memory(&self.pieces.rows))
            .saturating_add(table::memory(&self.pieces.values))
            .saturating_add(table::memory(&self.out))
    }

    /// Gives back, of each of the four, the memory beyond `bytes`.
    pub fn shrink_to(&mut self, bytes: usize) {
        table::shrink(&mut self.pieces.area, bytes);
        table::shrink(&mut self.pieces.rows, bytes / size_of::<u64>());
        table::shrink(&mut self.pieces.values, bytes / size_of::<u64>());
        table::shrink(&mut self.out, bytes);
    }
}

/// How many bytes [`encode_rowset`] gives, or why it refuses.
pub fn encoded_size<'a, R>(rows: &[Option<R>]) -> Result<usize, WireError>
where
    R: AsRef<[UnversionedValue<'a>]>,
{
    let measure = Measure::of(rows);
    if measure.within {
        return Ok(measure.size);
    }
    Pieces::new().refuse(rows, measure.values)
}

/// The bytes of a rowset: `None` is written as a null row, `Some` of no values as an empty one.
pub fn encode_rowset<'a, R>(rows: &[Option<R>]) -> Result<Vec<u8>, WireError>
where
    R: AsRef<[UnversionedValue<'a>]>,
{
    let mut out = Vec::new();
    encode_rowset_into(rows, &mut out)?;
    Ok(out)
}

/// Appends the bytes of a rowset to `out`, which a refusal leaves as it was. An [`Encoder`] keeps its
/// tables for the next rowset.
pub fn encode_rowset_into<'a, R>(rows: &[Option<R>], out: &mut Vec<u8>) -> Result<(), WireError>
where
    R: AsRef<[UnversionedValue<'a>]>,
{
    Encoder::new().encode_rowset_into(rows, out)
}
