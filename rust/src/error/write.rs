//! Writing error messages. The library takes texts, keys and values from one area of bytes, so they are
//! copied into one first; those of a message that was read are not.

use super::{Attribute, AttributeWords, ErrorRefusal, ErrorWords, TError};
use crate::sys::{self, Outcome};
use crate::table::count;

/// An error to write.
#[derive(Debug, Clone, Copy, PartialEq, Eq)]
pub struct NewError<'a> {
    /// 1 for the first error, which is the outermost, and for no other; else at least 2, at most one more
    /// than that of the error before it, and at most [`MAX_DEPTH`](super::MAX_DEPTH).
    pub depth: usize,
    /// What it is numbered by.
    pub code: i32,
    /// What it says.
    pub text: &'a [u8],
    /// Its attributes in their order.
    pub attributes: &'a [Attribute<'a>],
}

/// The tables of some errors.
struct Tables {
    errors: Vec<ErrorWords>,
    attributes: Vec<AttributeWords>,
}

/// Reserves room for `more` elements, or says how many bytes that would have been.
fn reserve<T>(table: &mut Vec<T>, more: usize) -> Result<(), ErrorRefusal> {
    let reserved = table.try_reserve(more);
    reserved.map_err(|_| ErrorRefusal::no_memory::<T>(more))
}

impl Tables {
    /// Lists the errors, each stretch of bytes where `place` says that it lies.
    fn list<'a>(
        errors: &[NewError<'a>],
        mut place: impl FnMut(&'a [u8]) -> usize,
    ) -> Result<Self, ErrorRefusal> {
        let mut tables = Self {
            errors: Vec::new(),
            attributes: Vec::new(),
        };
        let rows = errors.iter().map(|error| error.attributes.len());
        let rows = rows.fold(0, usize::saturating_add);
        reserve(&mut tables.errors, errors.len())?;
        reserve(&mut tables.attributes, rows)?;
        let mut lie = |bytes: &'a [u8]| [place(bytes) as u64, bytes.len() as u64];
        for (index, error) in errors.iter().enumerate() {
            let [offset, length] = lie(error.text);
            let code = u64::from(error.code as u32);
            let depth = error.depth as u64;
            tables.errors.push([code, depth, offset, length]);
            for attribute in error.attributes {
                let [key, key_length] = lie(attribute.key);
                let [value, value_length] = lie(attribute.value);
                let row = [index as u64, key, key_length, value, value_length];
                tables.attributes.push(row);
            }
        }
        Ok(tables)
    }

    /// The errors in a table each, with the area that their bytes lie in one after another.
    fn lay(errors: &[NewError<'_>]) -> Result<(Self, Vec<u8>), ErrorRefusal> {
        let mut area = Vec::new();
        let bytes = errors.iter().flat_map(stretches).map(<[u8]>::len);
        reserve(&mut area, bytes.fold(0, usize::saturating_add))?;
        let tables = Self::list(errors, |bytes| {
            let offset = area.len();
            area.extend_from_slice(bytes);
            offset
        })?;
        Ok((tables, area))
    }

    fn lent<'t>(&'t self, area: &'t [u8]) -> Lent<'t> {
        Lent {
            area,
            errors: self.errors.as_flattened(),
            attributes: self.attributes.as_flattened(),
        }
    }
}

/// Text, keys and values of an error.
fn stretches<'a>(error: &NewError<'a>) -> impl Iterator<Item = &'a [u8]> + use<'a> {
    let pairs = error.attributes.iter();
    let pairs = pairs.flat_map(|attribute| [attribute.key, attribute.value]);
    std::iter::once(error.text).chain(pairs)
}

/// What of errors goes to the library.
struct Lent<'t> {
    area: &'t [u8],
    errors: &'t [u64],
    attributes: &'t [u64],
}

fn accepted(outcome: Outcome) -> Result<usize, ErrorRefusal> {
    match outcome.kind {
        sys::ACCEPTED => Ok(count(outcome.count)),
        _ => Err(ErrorRefusal::of(&outcome, usize::MAX, usize::MAX)),
    }
}

impl Lent<'_> {
    fn size(&self) -> Result<usize, ErrorRefusal> {
        accepted(sys::error_size(self.area, self.errors, self.attributes))
    }

    /// Appends the message's bytes; a refusal leaves `out` as it was.
    fn append(&self, out: &mut Vec<u8>) -> Result<(), ErrorRefusal> {
        let size = self.size()?;
        reserve(out, size)?;
        let start = out.len();
        out.resize(start + size, 0);
        let room = out.get_mut(start..).unwrap_or_default();
        let written = sys::error_write(self.area, self.errors, self.attributes, room);
        accepted(written)
            .map(|_| ())
            .inspect_err(|_| out.truncate(start))
    }
}

/// How many bytes the message of these errors takes; nothing is copied.
pub fn encoded_size(errors: &[NewError<'_>]) -> Result<usize, ErrorRefusal> {
    // Only the lengths count: all lie at the front of the longest.
    let longest = errors
        .iter()
        .flat_map(stretches)
        .max_by_key(|bytes| bytes.len());
    let tables = Tables::list(errors, |_| 0)?;
    tables.lent(longest.unwrap_or_default()).size()
}

/// The message of these errors, which stand in pre-order: each before its inner ones.
pub fn encode(errors: &[NewError<'_>]) -> Result<Vec<u8>, ErrorRefusal> {
    let mut out = Vec::new();
    encode_into(errors, &mut out)?;
    Ok(out)
}

/// Appends the message of these errors to `out`; a refusal leaves it as it was.
pub fn encode_into(errors: &[NewError<'_>], out: &mut Vec<u8>) -> Result<(), ErrorRefusal> {
    let (tables, area) = Tables::lay(errors)?;
    tables.lent(&area).append(out)
}

impl TError<'_> {
    /// The message in the one form that is written: code and text always, one dictionary for each error
    /// that has attributes, shortest varints, no fields that are not known.
    pub fn encode(&self) -> Result<Vec<u8>, ErrorRefusal> {
        let mut out = Vec::new();
        self.lent().append(&mut out)?;
        Ok(out)
    }

    /// How many bytes [`TError::encode`] gives.
    pub fn encoded_size(&self) -> Result<usize, ErrorRefusal> {
        self.lent().size()
    }

    fn lent(&self) -> Lent<'_> {
        Lent {
            area: self.input,
            errors: self.errors.as_flattened(),
            attributes: self.attributes.as_flattened(),
        }
    }
}
