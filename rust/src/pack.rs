//! Packing the bytes behind a value table, for an editor that keeps its terms so: tables of words over
//! one area of bytes, as the static library has them.
//!
//! Terms that are deleted and typed again leave bytes in the area that no value names. [`pack`] copies
//! what is named to a second area, and changes the table to what lies where there.

use crate::sys;
use crate::table::{self, count};
use crate::wire::{ValueType, WIDTH};
use std::fmt;

/// The words of a value in a table: its column, its type (a [`ValueType`] as a number), its aggregate
/// flag (0 or 1), the word of a scalar or where the bytes begin in the area, and how many bytes there
/// are (0 for a scalar).
pub const VALUE_WORDS: usize = WIDTH;

/// Why a table is not packed. The table and the second area are then as they were.
#[derive(Debug, Clone, Copy, PartialEq, Eq)]
#[non_exhaustive]
pub enum PackError {
    /// The table's words are no multiple of [`VALUE_WORDS`].
    NotWhole {
        /// How many whole entries there are.
        entries: usize,
    },
    /// An entry that stands for no value: a column above 65,535, an unknown type, a flag or a boolean
    /// above 1, a word that should be 0, or bytes outside the area.
    BadEntry {
        /// The first such entry.
        position: usize,
    },
    /// The second area is too short, or there is no memory for one.
    NoRoom {
        /// How many bytes the distinct pairs of offset and length have, 2^64-1 standing for more.
        needed: u64,
        /// How many bytes there were.
        given: u64,
    },
    /// A number that packing is not refused by: it does not arise.
    Other(u64),
}

impl PackError {
    /// The refusal's number.
    pub const fn code(&self) -> u32 {
        match self {
            Self::NoRoom { .. } => 17,
            Self::NotWhole { .. } | Self::BadEntry { .. } => 18,
            Self::Other(number) => *number as u32,
        }
    }

    fn of(outcome: &sys::Outcome) -> Self {
        let [a, b, c, ..] = outcome.values;
        match (outcome.number, a) {
            (17, _) => Self::NoRoom {
                needed: b,
                given: c,
            },
            (18, 1) => Self::NotWhole { entries: count(b) },
            (18, _) => Self::BadEntry { position: count(b) },
            (number, _) => Self::Other(number),
        }
    }
}

impl fmt::Display for PackError {
    fn fmt(&self, formatter: &mut fmt::Formatter<'_>) -> fmt::Result {
        match self {
            Self::NotWhole { entries } => write!(
                formatter,
                "the value table ends inside an entry, behind {entries} whole ones"
            ),
            Self::BadEntry { position } => {
                write!(formatter, "entry {position} of the value table is no value")
            }
            Self::NoRoom { needed, given } => write!(
                formatter,
                "the values have {needed} bytes, and there is room for {given}"
            ),
            Self::Other(number) => write!(formatter, "packing refused by number {number}"),
        }
    }
}

impl std::error::Error for PackError {}

/// Packs the bytes of `area` that the table names to the front of `out`, and answers how many they are.
///
/// Each distinct non-empty pair of offset and length is stored once, in the order of first use, and the
/// table's offsets are changed to where it lies in `out`; a String and an Any that name one pair share
/// it, and equal bytes at two places stay two. Empty values get offset 0. Columns, types, flags, lengths
/// and the words of scalars stay as they were, as does what lies in `out` behind the packed bytes. A
/// rowset written from `out` and the changed table is the one that was written from `area` and the
/// table before, whatever its rows; packing once more changes nothing.
///
/// ```
/// use cablefinch::pack::{PackError, pack};
///
/// let area = b"old Dorsch new Kabeljau";
/// // A String, an Any, a number, a Composite over the String's bytes, a String within them, none.
/// let mut values = [
///     [1, 16, 0, 4, 6],
///     [2, 17, 0, 15, 8],
///     [3, 3, 0, 99, 0],
///     [4, 18, 1, 4, 6],
///     [5, 16, 0, 5, 5],
///     [6, 16, 0, 23, 0],
/// ];
/// let mut out = [0; 32];
/// let short = pack(area, values.as_flattened_mut(), &mut out[..18]);
/// assert_eq!(short, Err(PackError::NoRoom { needed: 19, given: 18 }));
///
/// let packed = pack(area, values.as_flattened_mut(), &mut out)?;
/// assert_eq!(&out[..packed], b"DorschKabeljauorsch");
/// assert_eq!(values.map(|entry| entry[3]), [0, 6, 99, 0, 14, 0]);
/// # Ok::<(), PackError>(())
/// ```
pub fn pack(area: &[u8], values: &mut [u64], out: &mut [u8]) -> Result<usize, PackError> {
    let outcome = sys::pack(area, values, out);
    match outcome.kind {
        sys::ACCEPTED => Ok(count(outcome.count)),
        _ => Err(PackError::of(&outcome)),
    }
}

/// [`pack`] into memory of its own, which has the packed bytes and no more. The table is walked once to
/// measure them and once to pack.
pub fn packed(area: &[u8], values: &mut [u64]) -> Result<Vec<u8>, PackError> {
    let mut out = Vec::new();
    match pack(area, values, &mut out) {
        Err(PackError::NoRoom { needed, .. }) if table::grow(&mut out, count(needed)) => {
            pack(area, values, &mut out)?;
            Ok(out)
        }
        // The bytes are none, and the table is changed.
        Ok(_) => Ok(out),
        Err(refusal) => Err(refusal),
    }
}

/// The words of an entry whose bytes are `length` many from `offset` on.
pub const fn entry(
    id: u16,
    kind: ValueType,
    aggregate: bool,
    offset: u64,
    length: u64,
) -> [u64; VALUE_WORDS] {
    [id as u64, kind as u64, aggregate as u64, offset, length]
}

#[cfg(test)]
mod tests {
    use super::*;
    use crate::sys;

    const AREA: &[u8; 23] = b"old Dorsch new Kabeljau";

    fn example() -> Vec<u64> {
        [
            entry(1, ValueType::String, false, 4, 6),
            entry(2, ValueType::Any, false, 15, 8),
            entry(3, ValueType::Int64, false, 99, 0),
            entry(4, ValueType::Composite, true, 4, 6),
            entry(5, ValueType::String, false, 5, 5),
            entry(6, ValueType::String, false, 23, 0),
        ]
        .concat()
    }

    /// What a rowset of one row of all values is written as, or its refusal's number and values.
    fn rowset(area: &[u8], values: &[u64]) -> Result<Vec<u8>, (u64, [u64; 7])> {
        let rows = [(values.len() / VALUE_WORDS) as u64];
        let mut out = vec![0; 64 + 8 * values.len() + 2 * area.len() * values.len()];
        let outcome = sys::encode_rowset(area, &rows, values, &mut out);
        if outcome.kind != sys::ACCEPTED {
            return Err((outcome.number, outcome.values));
        }
        out.truncate(count(outcome.count));
        Ok(out)
    }

    #[test]
    fn the_same_rowset_is_written() {
        let before = example();
        let mut after = before.clone();
        let out = packed(AREA, &mut after).unwrap();
        assert_eq!(out, b"DorschKabeljauorsch");
        assert_eq!(rowset(AREA, &before), rowset(&out, &after));
        let mut again = after.clone();
        assert_eq!(packed(&out, &mut again).unwrap(), out);
        assert_eq!(again, after);
    }

    #[test]
    fn a_refusal_changes_nothing() {
        let mut tables = vec![(example(), 18, 17)];
        for (word, number) in [(0, 65_536), (1, 7), (2, 2), (3, 24), (4, 20), (3, u64::MAX)] {
            for entry in [0, 5] {
                let mut table = example();
                table[VALUE_WORDS * entry + word] = number;
                tables.push((table, 64, 18));
            }
        }
        for more in 1..VALUE_WORDS {
            let mut table = example();
            table.extend(vec![0; more]);
            tables.push((table, 64, 18));
        }
        for (table, room, code) in tables {
            let mut lent = table.clone();
            let mut out = vec![0xa5; room];
            let refusal = pack(AREA, &mut lent, &mut out).unwrap_err();
            assert_eq!((refusal.code(), lent), (code, table));
            assert!(out.iter().all(|&byte| byte == 0xa5));
        }
    }

    #[test]
    fn refusals_tell_where() {
        let mut table = example();
        table.pop();
        let refusal = pack(AREA, &mut table, &mut []).unwrap_err();
        assert_eq!(refusal, PackError::NotWhole { entries: 5 });
        let refusal = pack(&AREA[..22], &mut example(), &mut []).unwrap_err();
        assert_eq!(refusal, PackError::BadEntry { position: 1 });
        let none: Result<Vec<u8>, PackError> = packed(AREA, &mut []);
        assert_eq!(none, Ok(Vec::new()));
    }

    /// Pairs that agree in many bits, each twice: what a plain search over all
    /// earlier ones finds, in the time of one walk.
    #[test]
    fn hostile_pairs() {
        for (step, count) in [(1, 40_000), (16, 40_000), (1024, 40_000), (65_536, 1_000)] {
            let area = vec![7; step * count + 9];
            let mut table = Vec::new();
            for _ in 0..2 {
                for at in 0..count {
                    let place = (step * at) as u64;
                    let length = 1 + (at % 3) as u64;
                    table.extend(entry(9, ValueType::String, false, place, length));
                }
            }
            let mut out = vec![0; 2 * count];
            let filled = pack(&area, &mut table, &mut out).unwrap();
            let (first, second) = table.split_at(table.len() / 2);
            assert_eq!(first, second);
            let mut end = 0;
            for entry in first.chunks_exact(VALUE_WORDS) {
                assert_eq!((entry[0], entry[1], entry[2], entry[3]), (9, 16, 0, end));
                end += entry[4];
            }
            assert_eq!(end, filled as u64);
        }
    }
}
