//! Packets: a fixed header, the sizes and checksums of the parts, and the parts.
//!
//! A part that is absent is `None`, and one of no bytes `Some(&[])`: the layers above mean
//! different things by the two. An iterator over parts that is flattened loses the null ones, and
//! each later part then stands at the wrong index.

mod owned;
mod read;
#[cfg(test)]
mod tests;
mod write;

pub use owned::OwnedPacket;
pub use read::{Decoded, Decoder, Ready, decode, decode_with, ready, ready_with};
pub use write::{Encoder, encode, encoded_size, part_checksum, size, validate};

use crate::guid::Guid;
use crate::sys::{self, Outcome};
use crate::table::{self, count};
use std::borrow::Cow;
use std::fmt;
use std::ops::Range;

/// The word that every packet begins with.
pub const SIGNATURE: u32 = 0x7861_6d4f;

/// The bytes of the fixed header.
pub const FIXED_HEADER_SIZE: usize = 36;

/// The size word of a null part on the wire.
pub const NULL_PART_SIZE: u32 = 0xffff_ffff;

/// The checksum word that is never verified.
pub const NULL_CHECKSUM: u64 = 0;

/// The most bytes that a part may have.
pub const MAX_PART_SIZE: u32 = 1 << 30;

/// The most parts that a packet may have.
pub const MAX_PART_COUNT: u32 = 1 << 28;

/// The most parts that [`decode`] takes: a part costs more in memory than on the wire.
pub const DEFAULT_MAX_PART_COUNT: u32 = 1 << 16;

/// The length word of a null part in a table.
const NULL: u64 = u64::MAX;

/// The words of a part in a table. [`entry`], [`range`] and [`guard`] alone say what they are.
const WIDTH: usize = 3;

/// The table's words for a part that begins at `offset` and has `length` bytes, none where it is
/// null.
fn entry(offset: usize, length: Option<usize>) -> [u64; WIDTH] {
    match length {
        None => [0, NULL, 0],
        Some(length) => [offset as u64, length as u64, 0],
    }
}

/// Where a part lies that a table's words name; none where it is null.
fn range(words: &[u64]) -> Option<Range<usize>> {
    match *words {
        [0, NULL, ..] => None,
        [offset, length, ..] => {
            let start = count(offset);
            Some(start..start.saturating_add(count(length)))
        }
        _ => Some(0..0),
    }
}

/// Whether a part came with a checksum, by a table's words; none where it is null.
fn guard(words: &[u64]) -> Option<Guard> {
    match *words {
        [0, NULL, ..] => None,
        [_, _, 0] => Some(Guard::Bare),
        [_, _, sum] => Some(Guard::Guarded(sum)),
        _ => None,
    }
}

/// The bytes of a part in a table.
const ENTRY: usize = WIDTH * size_of::<u64>();

/// A part: its bytes, or `None` where it is null.
pub type Part<'a> = Option<&'a [u8]>;

/// Whom a packet comes from or goes to. There is no default: a service on a live socket wants
/// [`Mode::Live`], a program that reads what was stored [`Mode::Archive`].
#[derive(Debug, Clone, Copy, PartialEq, Eq, Hash)]
#[repr(u64)]
pub enum Mode {
    /// An archive: every type is read and written, as by the original.
    Archive = 0,
    /// A live peer: [`PacketType::SslAck`] is refused, [`PacketError::RetiredType`], since encryption
    /// ends at the gateway.
    Live = 1,
}

/// Whether a part that was read came with a checksum.
#[derive(Debug, Clone, Copy, PartialEq, Eq, Hash)]
pub enum Guard {
    /// The packet has this checksum for it, and its bytes were verified against it.
    Guarded(u64),
    /// The packet has 0 in that place. Nothing was verified: the sender stored no checksum, or the
    /// bytes' own checksum is 0, as that of an empty part is.
    Bare,
}

/// What a packet is.
#[derive(Debug, Clone, Copy, PartialEq, Eq, Hash)]
#[repr(u16)]
pub enum PacketType {
    /// A message, with its parts.
    Message = 0,
    /// The acknowledgement of a message.
    Ack = 1,
    /// The acknowledgement of a handshake. Retired: no live peer may send it.
    SslAck = 2,
}

/// A packet's flags; bits without a name are kept.
#[derive(Debug, Clone, Copy, PartialEq, Eq, Hash, Default)]
pub struct PacketFlags(pub u16);

impl PacketFlags {
    /// No flag.
    pub const NONE: Self = Self(0);
    /// The sender wants an acknowledgement.
    pub const REQUEST_ACKNOWLEDGEMENT: Self = Self(1);

    /// Whether all flags of `other` are set.
    pub fn contains(self, other: Self) -> bool {
        sys::contains(self.0, other.0)
    }
}

/// A packet over bytes that are lent.
#[derive(Debug, Clone, PartialEq, Eq)]
pub struct Packet<'a> {
    /// What it is.
    pub packet_type: PacketType,
    /// Its flags.
    pub flags: PacketFlags,
    /// Its id, which for a message is the event's.
    pub id: Guid,
    /// Its parts.
    pub parts: Parts<'a>,
}

impl<'a> Packet<'a> {
    /// A message of the given parts.
    pub fn message(id: Guid, parts: impl Into<Parts<'a>>, flags: PacketFlags) -> Self {
        Self {
            packet_type: PacketType::Message,
            flags,
            id,
            parts: parts.into(),
        }
    }
}

/// The parts of a packet, in their order; made from a list of parts, or by a decoder.
#[derive(Clone)]
pub struct Parts<'a>(Repr<'a>);

#[derive(Clone)]
enum Repr<'a> {
    /// [`WIDTH`] words a part, over the bytes that were read.
    Table {
        input: &'a [u8],
        words: Cow<'a, [u64]>,
    },
    // Not `Cow`, over which a packet's lifetime could not be shortened.
    Lent(&'a [Part<'a>]),
    Owned(Vec<Part<'a>>),
}

impl<'a> Parts<'a> {
    /// How many parts there are, null ones among them.
    pub fn len(&self) -> usize {
        match &self.0 {
            Repr::Table { words, .. } => words.len() / WIDTH,
            Repr::Lent(list) => list.len(),
            Repr::Owned(list) => list.len(),
        }
    }

    /// Whether there is no part.
    pub fn is_empty(&self) -> bool {
        self.len() == 0
    }

    /// Part `index`, where there is one: `Some(None)` is a null part, `None` no part at all.
    pub fn get(&self, index: usize) -> Option<Part<'a>> {
        match &self.0 {
            Repr::Table { input, words } => {
                let at = index.checked_mul(WIDTH)?;
                let words = words.get(at..at.checked_add(WIDTH)?)?;
                Some(range(words).map(|range| table::stretch(input, range)))
            }
            Repr::Lent(list) => list.get(index).copied(),
            Repr::Owned(list) => list.get(index).copied(),
        }
    }

    /// Whether part `index` came with a checksum. `None` where there is no such part, where it is null
    /// (a null part has no bytes to guard), and for parts that were not read from a packet.
    pub fn guard(&self, index: usize) -> Option<Guard> {
        match &self.0 {
            Repr::Table { words, .. } => {
                let at = index.checked_mul(WIDTH)?;
                guard(words.get(at..at.checked_add(WIDTH)?)?)
            }
            Repr::Lent(_) | Repr::Owned(_) => None,
        }
    }

    /// All parts in their order, null ones as `None`. `flatten` on it would drop the null parts, and
    /// the parts behind them would no longer stand at their index.
    pub fn iter(&self) -> PartsIter<'_, 'a> {
        PartsIter {
            parts: self,
            next: 0,
        }
    }
}

impl Default for Parts<'_> {
    fn default() -> Self {
        Self(Repr::Lent(&[]))
    }
}

impl fmt::Debug for Parts<'_> {
    fn fmt(&self, formatter: &mut fmt::Formatter<'_>) -> fmt::Result {
        formatter.debug_list().entries(self.iter()).finish()
    }
}

impl PartialEq for Parts<'_> {
    fn eq(&self, other: &Self) -> bool {
        self.iter().eq(other.iter())
    }
}

impl Eq for Parts<'_> {}

impl<'a> From<Vec<Part<'a>>> for Parts<'a> {
    fn from(list: Vec<Part<'a>>) -> Self {
        Self(Repr::Owned(list))
    }
}

impl<'a> From<&'a [Part<'a>]> for Parts<'a> {
    fn from(list: &'a [Part<'a>]) -> Self {
        Self(Repr::Lent(list))
    }
}

impl<'a, const N: usize> From<&'a [Part<'a>; N]> for Parts<'a> {
    fn from(list: &'a [Part<'a>; N]) -> Self {
        Self(Repr::Lent(list))
    }
}

impl<'p, 'a> IntoIterator for &'p Parts<'a> {
    type Item = Part<'a>;
    type IntoIter = PartsIter<'p, 'a>;

    fn into_iter(self) -> Self::IntoIter {
        self.iter()
    }
}

/// The iterator of [`Parts::iter`].
#[derive(Debug, Clone)]
pub struct PartsIter<'p, 'a> {
    parts: &'p Parts<'a>,
    next: usize,
}

impl<'a> Iterator for PartsIter<'_, 'a> {
    type Item = Part<'a>;

    fn next(&mut self) -> Option<Self::Item> {
        let part = self.parts.get(self.next)?;
        self.next += 1;
        Some(part)
    }

    fn size_hint(&self) -> (usize, Option<usize>) {
        let rest = self.parts.len().saturating_sub(self.next);
        (rest, Some(rest))
    }
}

impl ExactSizeIterator for PartsIter<'_, '_> {}

/// Why a packet is refused.
#[derive(Debug, Clone, Copy, PartialEq, Eq)]
#[non_exhaustive]
pub enum PacketError {
    /// It does not begin with [`SIGNATURE`] but with this word.
    Signature(u32),
    /// There is no such type.
    UnknownType(u16),
    /// It has more parts than are allowed.
    TooManyParts {
        /// How many, 2^32-1 standing for more.
        count: u32,
    },
    /// A part has more than [`MAX_PART_SIZE`] bytes.
    PartTooLarge {
        /// Which part.
        index: usize,
        /// Its bytes, 2^32-1 standing for more.
        size: u32,
    },
    /// The fixed header was damaged.
    FixedHeaderChecksum {
        /// The checksum in the header.
        expected: u64,
        /// That of the bytes.
        actual: u64,
    },
    /// The sizes and checksums of the parts were damaged.
    VariableHeaderChecksum {
        /// The checksum in the header.
        expected: u64,
        /// That of the bytes.
        actual: u64,
    },
    /// A part was damaged.
    PartChecksum {
        /// Which part.
        index: usize,
        /// The checksum in the header.
        expected: u64,
        /// That of the bytes.
        actual: u64,
    },
    /// It is longer than the caller takes.
    MessageTooLarge {
        /// Its bytes, as far as they are known.
        size: u64,
        /// The most that the caller takes.
        limit: u64,
    },
    /// There was no memory for the table of parts or for the output.
    NoRoom {
        /// How many bytes were wanted.
        size: usize,
    },
    /// No live peer may send this type: in [`Mode::Live`] alone.
    RetiredType(u16),
    /// A number that packets are not refused by: it does not arise.
    Other(u64),
}

impl PacketError {
    /// The refusal's number.
    pub const fn code(&self) -> u32 {
        match self {
            Self::Signature(_) => 1,
            Self::UnknownType(_) => 2,
            Self::TooManyParts { .. } => 3,
            Self::PartTooLarge { .. } => 4,
            Self::FixedHeaderChecksum { .. } => 5,
            Self::VariableHeaderChecksum { .. } => 6,
            Self::PartChecksum { .. } => 7,
            Self::MessageTooLarge { .. } => 8,
            Self::NoRoom { .. } => 17,
            Self::RetiredType(_) => 24,
            Self::Other(number) => *number as u32,
        }
    }

    fn of(outcome: &Outcome) -> Self {
        let [a, b, c, ..] = outcome.values;
        match outcome.number {
            1 => Self::Signature(a as u32),
            2 => Self::UnknownType(a as u16),
            3 => Self::TooManyParts { count: a as u32 },
            4 => Self::PartTooLarge {
                index: count(a),
                size: b as u32,
            },
            5 => Self::FixedHeaderChecksum {
                expected: a,
                actual: b,
            },
            6 => Self::VariableHeaderChecksum {
                expected: a,
                actual: b,
            },
            7 => Self::PartChecksum {
                index: count(a),
                expected: b,
                actual: c,
            },
            8 => Self::MessageTooLarge { size: a, limit: b },
            17 => Self::no_room(count(b), if a == 4 { 1 } else { ENTRY }),
            24 => Self::RetiredType(a as u16),
            number => Self::Other(number),
        }
    }

    fn no_room(entries: usize, bytes: usize) -> Self {
        Self::NoRoom {
            size: entries.saturating_mul(bytes),
        }
    }
}

impl fmt::Display for PacketError {
    fn fmt(&self, formatter: &mut fmt::Formatter<'_>) -> fmt::Result {
        let checksum = |formatter: &mut fmt::Formatter<'_>, expected: u64, actual: u64| {
            write!(
                formatter,
                "checksum mismatch: header says {expected:#018x}, bytes give {actual:#018x}"
            )
        };
        match *self {
            Self::Signature(word) => write!(
                formatter,
                "packet signature mismatch: expected {SIGNATURE:#x}, got {word:#x}"
            ),
            Self::UnknownType(number) => write!(formatter, "unknown packet type {number}"),
            Self::TooManyParts { count } => {
                write!(
                    formatter,
                    "packet declares {count} parts, more than are allowed"
                )
            }
            Self::PartTooLarge { index, size } => write!(
                formatter,
                "part {index} is {size} bytes, more than the {MAX_PART_SIZE} allowed"
            ),
            Self::FixedHeaderChecksum { expected, actual } => {
                formatter.write_str("fixed header ")?;
                checksum(formatter, expected, actual)
            }
            Self::VariableHeaderChecksum { expected, actual } => {
                formatter.write_str("variable header ")?;
                checksum(formatter, expected, actual)
            }
            Self::PartChecksum {
                index,
                expected,
                actual,
            } => {
                write!(formatter, "part {index} ")?;
                checksum(formatter, expected, actual)
            }
            Self::MessageTooLarge { size, limit } => write!(
                formatter,
                "packet is {size} bytes, more than the {limit} this connection accepts"
            ),
            Self::NoRoom { size } => {
                write!(formatter, "could not reserve {size} bytes for a packet")
            }
            Self::RetiredType(number) => write!(formatter, "retired packet type {number}"),
            Self::Other(number) => write!(formatter, "packet refused by number {number}"),
        }
    }
}

impl std::error::Error for PacketError {}

/// A refused packet. After one, close the connection.
///
/// Where the next packet begins is no longer known. For every refusal but
/// [`PacketError::PartChecksum`] nothing was consumed, so that a loop that drops `consumed` bytes
/// and goes on meets the same bytes for ever. After `PartChecksum` the bytes that follow
/// `consumed` are the rest of the damaged packet's parts, and parts hold what somebody else wrote:
/// a part that holds a whole packet would be taken for a packet of the sender's. The test
/// `a_part_behind_a_damaged_one_is_no_packet` shows one.
#[derive(Debug, Clone, Copy, PartialEq, Eq)]
pub struct Refusal {
    /// Why.
    pub error: PacketError,
    /// How many bytes the original has by then removed from the front of its buffer: after
    /// [`PacketError::PartChecksum`] the headers and the parts up to and including the damaged one,
    /// else 0. It is no place to read on from.
    pub consumed: usize,
}

impl Refusal {
    /// The refusal's number.
    pub const fn code(&self) -> u32 {
        self.error.code()
    }
}

impl fmt::Display for Refusal {
    fn fmt(&self, formatter: &mut fmt::Formatter<'_>) -> fmt::Result {
        self.error.fmt(formatter)
    }
}

impl std::error::Error for Refusal {
    fn source(&self) -> Option<&(dyn std::error::Error + 'static)> {
        Some(&self.error)
    }
}

impl From<Refusal> for PacketError {
    fn from(refusal: Refusal) -> Self {
        refusal.error
    }
}
