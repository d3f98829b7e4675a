//! YSON: what an Any or a Composite value holds, in its binary form, without white space.
//!
//! [`check`] says whether bytes are one node and nothing behind it; [`Yson`] is such a node with the items
//! of its outer map. Nothing is built or copied: keys and values are lent from the bytes that were read.
//!
//! ```
//! use cablefinch::wire::Value;
//!
//! let note = Value::Any(b"{\x01\x0alabel=\x01\x06cod;\x01\x08page=\x02\x0e}");
//! let yson = note.yson().ok_or("neither Any nor Composite")??;
//! let names: Vec<_> = yson.items().map(|item| item.name()).collect();
//! assert_eq!(names, [&b"label"[..], b"page"]);
//! assert_eq!(yson.get(b"label"), Some(&b"\x01\x06cod"[..]));
//!
//! // Cut short, it says where.
//! let error = cablefinch::yson::check(b"{\x01\x0alabel=\x01\x06co").unwrap_err();
//! assert_eq!((error.code(), error.place()), (20, Some(9)));
//! # Ok::<(), Box<dyn std::error::Error>>(())
//! ```

use crate::sys::{self, Outcome};
use crate::table::{self, count};
use std::fmt;

/// The most brackets, of `[`, `{` and `<` together, that may be open at once.
pub const MAX_OPEN_BRACKETS: usize = 64;

/// The words of an item in a table.
const WIDTH: usize = 4;

/// The bytes of an item in a table.
const ENTRY: usize = WIDTH * size_of::<u64>();

/// Whether `input` is one node within [`MAX_OPEN_BRACKETS`]: how many items its outer map has, 0 where it
/// is no map.
pub fn check(input: &[u8]) -> Result<usize, YsonError> {
    counted(&sys::yson_check(input))
}

/// How many items an outcome tells of.
fn counted(outcome: &Outcome) -> Result<usize, YsonError> {
    if outcome.kind != sys::ACCEPTED {
        return Err(YsonError::of(outcome));
    }
    Ok(count(outcome.values[0]))
}

/// A node that was checked, over the bytes that it was read from.
#[derive(Clone, PartialEq, Eq)]
pub struct Yson<'a> {
    input: &'a [u8],
    words: Vec<u64>,
}

impl<'a> Yson<'a> {
    /// Reads the node that `input` is, all of it.
    pub fn read(input: &'a [u8]) -> Result<Self, YsonError> {
        let mut words = Vec::new();
        // Where there is no memory for it, 17 says so below.
        table::grow(&mut words, guess(input).saturating_mul(WIDTH));
        let mut outcome = sys::yson_items(input, &mut words);
        let [_, needed, ..] = outcome.values;
        if outcome.number == 17 && table::grow(&mut words, count(needed).saturating_mul(WIDTH)) {
            outcome = sys::yson_items(input, &mut words);
        }
        table::shrink(&mut words, counted(&outcome)?.saturating_mul(WIDTH));
        Ok(Self { input, words })
    }

    /// All of its bytes.
    pub fn bytes(&self) -> &'a [u8] {
        self.input
    }

    /// The items of the outer map in their order, equal keys each by itself; none where the node is no
    /// map. Attributes of the map are no items.
    pub fn items(&self) -> impl ExactSizeIterator<Item = Item<'a>> + Clone + use<'_, 'a> {
        let input = self.input;
        self.words
            .chunks_exact(WIDTH)
            .map(move |words| Item::of(input, words))
    }

    /// The value of the first item whose key's text is `name`, where there is one.
    pub fn get(&self, name: &[u8]) -> Option<&'a [u8]> {
        self.items()
            .find(|item| item.name() == name)
            .map(|item| item.value)
    }
}

/// How many items to make room for at first: one for every 32 bytes of what may be a map, so that the table
/// is no larger than the input.
fn guess(input: &[u8]) -> usize {
    match input.first() {
        Some(b'{' | b'<') => input.len() / ENTRY,
        _ => 0,
    }
}

impl fmt::Debug for Yson<'_> {
    fn fmt(&self, formatter: &mut fmt::Formatter<'_>) -> fmt::Result {
        formatter
            .debug_struct("Yson")
            .field("bytes", &self.input)
            .field("items", &self.items().collect::<Vec<_>>())
            .finish()
    }
}

/// An item of a map. Both stretches are whole nodes, which [`Yson::read`] takes again.
#[derive(Debug, Clone, Copy, PartialEq, Eq)]
pub struct Item<'a> {
    /// The key, which is a string: its marker, its length and its text.
    pub key: &'a [u8],
    /// The value, with its attributes where it has some.
    pub value: &'a [u8],
}

impl<'a> Item<'a> {
    /// The item that four words of a table name.
    fn of(input: &'a [u8], words: &[u64]) -> Self {
        let at = |index: usize| words.get(index).map_or(0, |&word| count(word));
        Self {
            key: table::stretch(input, at(0)..at(1)),
            value: table::stretch(input, at(2)..at(3)),
        }
    }

    /// The key's text, without its marker and its length.
    pub fn name(&self) -> &'a [u8] {
        // The length's bytes are 0x80 and above, but for the last.
        let ends = |&byte: &u8| byte < 0x80;
        let mut rest = self.key.get(1..).unwrap_or_default().splitn(2, ends);
        rest.nth(1).unwrap_or_default()
    }
}

/// Why bytes are no YSON, and where.
#[derive(Debug, Clone, Copy, PartialEq, Eq)]
#[non_exhaustive]
pub enum YsonError {
    /// What stands at the place is no whole token, or none that may stand there.
    BadYson {
        /// Where the token begins, or the input's length where one is missing.
        place: usize,
    },
    /// A bracket that might stand there would be one more than [`MAX_OPEN_BRACKETS`].
    TooDeep {
        /// Where the bracket stands.
        place: usize,
    },
    /// There was no memory for the table of items.
    AllocationFailed {
        /// How many bytes were wanted.
        size: usize,
    },
    /// A number that YSON is not refused by: it does not arise.
    Other(u64),
}

impl YsonError {
    /// The refusal's number.
    pub const fn code(&self) -> u32 {
        match self {
            Self::AllocationFailed { .. } => 17,
            Self::BadYson { .. } => 20,
            Self::TooDeep { .. } => 21,
            Self::Other(number) => *number as u32,
        }
    }

    /// Where the bytes fail, counted from 0.
    pub const fn place(&self) -> Option<usize> {
        match self {
            Self::BadYson { place } | Self::TooDeep { place } => Some(*place),
            Self::AllocationFailed { .. } | Self::Other(_) => None,
        }
    }

    fn of(outcome: &Outcome) -> Self {
        let [a, b, ..] = outcome.values;
        match outcome.number {
            17 => Self::AllocationFailed {
                size: count(b).saturating_mul(ENTRY),
            },
            20 => Self::BadYson { place: count(a) },
            21 => Self::TooDeep { place: count(a) },
            number => Self::Other(number),
        }
    }
}

impl fmt::Display for YsonError {
    fn fmt(&self, formatter: &mut fmt::Formatter<'_>) -> fmt::Result {
        match self {
            Self::BadYson { place } => write!(
                formatter,
                "not YSON: no token that may stand there is whole at byte {place}"
            ),
            Self::TooDeep { place } => write!(
                formatter,
                "YSON opens more than {MAX_OPEN_BRACKETS} brackets at byte {place}"
            ),
            Self::AllocationFailed { size } => {
                write!(formatter, "could not reserve {size} bytes for items")
            }
            Self::Other(number) => write!(formatter, "YSON refused by number {number}"),
        }
    }
}

impl std::error::Error for YsonError {}

#[cfg(test)]
mod tests {
    use super::*;
    use crate::wire::Value;

    const BAD: fn(usize) -> Result<usize, YsonError> = |place| Err(YsonError::BadYson { place });

    #[test]
    fn scalars_are_nodes_without_items() {
        for input in [
            &b"#"[..],
            b"\x04",
            b"\x05",
            b"\x01\x00",
            b"\x01\x04ab",
            b"\x02\xff\xff\xff\xff\xff\xff\xff\xff\xff\x01",
            b"\x06\x80\x00",
            b"\x03\x00\x00\x00\x00\x00\x00\xf0\x7f",
            b"[#;#;]",
            b"<\x01\x02a=#>#",
        ] {
            assert_eq!(check(input), Ok(0), "{input:?}");
            assert_eq!(Yson::read(input).unwrap().items().len(), 0);
        }
    }

    #[test]
    fn the_outer_map_has_its_items() {
        // Attributes before the map are no items, those of a value belong to it; a map inside is a value.
        let input = b"<\x01\x02x=#>{\x01\x02a=<>#;\x01\x82\x00a={\x01\x02b=#};\x01\x00=[]}";
        assert_eq!(check(input), Ok(3));
        let yson = Yson::read(input).unwrap();
        let found: Vec<_> = yson
            .items()
            .map(|item| (item.key, item.name(), item.value))
            .collect();
        let expected: [(&[u8], &[u8], &[u8]); 3] = [
            (b"\x01\x02a", b"a", b"<>#"),
            (b"\x01\x82\x00a", b"a", b"{\x01\x02b=#}"),
            (b"\x01\x00", b"", b"[]"),
        ];
        assert_eq!(found, expected);
        assert_eq!(yson.get(b"a"), Some(&b"<>#"[..]));
        assert_eq!(yson.get(b""), Some(&b"[]"[..]));
        assert_eq!(yson.get(b"x"), None);
        assert_eq!(yson.bytes(), input);
        for item in yson.items() {
            assert!(check(item.key).is_ok() && check(item.value).is_ok());
        }
    }

    #[test]
    fn a_text_may_have_any_bytes() {
        let yson = Yson::read(b"{\x01\x06\x00\x80==\x05}").unwrap();
        let item = yson.items().next().unwrap();
        assert_eq!((item.name(), item.value), (&b"\x00\x80="[..], &b"\x05"[..]));
    }

    #[test]
    fn many_short_items_take_a_second_call() {
        let input = [b"{".to_vec(), b"\x01\x00=#;".repeat(1000), b"}".to_vec()].concat();
        assert!(guess(&input) < 1000);
        let yson = Yson::read(&input).unwrap();
        assert_eq!(yson.items().len(), 1000);
        assert!(yson.items().all(|item| item.value == b"#"));
    }

    #[test]
    fn a_refusal_says_where() {
        for (input, place) in [
            (&b""[..], 0),
            (b" #", 0),
            (b"##", 1),
            (b"#;", 1),
            (b"[;]", 1),
            (b"[#;;]", 3),
            (b"[##]", 2),
            (b"[#", 2),
            (b"[\x01\x04a", 1),
            (b"\x01\x01a", 0),
            (b"{\x01\x02a#}", 4),
            (b"{#=#}", 1),
            (b"<>", 2),
            (b"\"text\"", 0),
        ] {
            assert_eq!(check(input), BAD(place), "{input:?}");
            assert_eq!(Yson::read(input), Err(YsonError::BadYson { place }));
        }
        let error = YsonError::BadYson { place: 3 };
        assert_eq!((error.code(), error.place()), (20, Some(3)));
    }

    #[test]
    fn sixty_four_brackets_and_no_more() {
        let deep = |depth: usize| [b"[".repeat(depth), b"]".repeat(depth)].concat();
        assert_eq!(check(&deep(MAX_OPEN_BRACKETS)), Ok(0));
        let error = check(&deep(MAX_OPEN_BRACKETS + 1)).unwrap_err();
        assert_eq!(error, YsonError::TooDeep { place: 64 });
        assert_eq!((error.code(), error.place()), (21, Some(64)));
        assert!(error.to_string().contains("64"));
    }

    #[test]
    fn only_any_and_composite_are_yson() {
        let map = b"{\x01\x02a=\x05}";
        for value in [Value::Any(map), Value::Composite(map)] {
            let yson = value.yson().unwrap().unwrap();
            assert_eq!(yson.get(b"a"), Some(&b"\x05"[..]));
        }
        assert_eq!(Value::String(map).yson(), None);
        assert_eq!(Value::Null.yson(), None);
        let broken = Value::Any(b"{").yson();
        assert_eq!(broken, Some(Err(YsonError::BadYson { place: 1 })));
    }
}
