//! Why a buffer was refused, for a log or a person: the field that the reader looked at, where it
//! stands, what was found there and what was wanted.
//!
//! The library is asked once more with the same bytes and limits, and its answer is proved to be
//! that of the reader's own order of checks: the named check fails, and all before it pass. Printed,
//! a [`Why`] is the line of the program `why`.
//!
//! ```
//! use cablefinch::packet::Mode;
//! use cablefinch::why::{self, Field, Why};
//!
//! let told = why::packet(Mode::Live, &[0; 36], 1 << 20, 100);
//! assert_eq!(told.to_string(), "refused 1 signature 0 0 2019650895");
//! assert!(matches!(told, Why::Refused { number: 1, place } if place.field == Field::Signature));
//! assert_eq!(why::rowset(&[]).to_string(), "refused 9 row-count 0 0 8");
//! assert_eq!(why::rowset(&[0; 8]), Why::Fine);
//! ```

use crate::packet::Mode;
use crate::sys::{self, ACCEPTED, MORE, Outcome};
use std::fmt;

/// The kind of an outcome that tells of an accepted rowset that is not plain.
const NOT_PLAIN: u64 = 3;

macro_rules! fields {
    ($($(#[$doc:meta])* $name:ident = $number:literal, $text:literal;)*) => {
        /// A field, or a length, that a check looks at.
        #[derive(Debug, Clone, Copy, PartialEq, Eq, Hash)]
        pub enum Field {
            $($(#[$doc])* $name = $number,)*
        }

        impl Field {
            fn of(number: u64) -> Field {
                match number {
                    $($number => Field::$name,)*
                    _ => Field::Padding,
                }
            }

            /// The field's name, as it is printed.
            pub fn name(self) -> &'static str {
                match self {
                    $(Field::$name => $text,)*
                }
            }
        }
    };
}

fields! {
    /// A packet's fixed header, which is waited for.
    FixedHeader = 1, "fixed-header";
    /// A packet's first word.
    Signature = 2, "signature";
    /// The type of a packet or of a value.
    Type = 3, "type";
    /// The checksum of the fixed header.
    FixedChecksum = 4, "fixed-checksum";
    /// How many parts a packet has.
    PartCount = 5, "part-count";
    /// The length of both headers.
    Headers = 6, "headers";
    /// The checksum of the variable header.
    VariableChecksum = 7, "variable-checksum";
    /// The size of a part.
    PartSize = 8, "part-size";
    /// The length of the whole packet.
    Whole = 9, "whole";
    /// The checksum of a part.
    PartChecksum = 10, "part-checksum";
    /// How many rows a rowset has.
    RowCount = 11, "row-count";
    /// How many values a row has.
    ValueCount = 12, "value-count";
    /// The header of a value.
    ValueHeader = 13, "value-header";
    /// The word of a scalar.
    Word = 14, "word";
    /// The bytes of a blob and their padding.
    Blob = 15, "blob";
    /// The length word of a value.
    Length = 16, "length";
    /// What follows the last row.
    TrailingBytes = 17, "trailing-bytes";
    /// The aggregate byte of a value.
    Aggregate = 18, "aggregate";
    /// A padding byte.
    Padding = 19, "padding";
}

/// What a field should have been.
#[derive(Debug, Clone, Copy, PartialEq, Eq, Hash)]
pub enum Wanted {
    /// The one right value, or the largest that is allowed.
    Number(u64),
    /// The packet types that a live peer may send.
    LiveTypes,
    /// The types of values.
    ValueTypes,
}

/// A field, where it stands, what was found there and what was wanted.
#[derive(Debug, Clone, Copy, PartialEq, Eq, Hash)]
pub struct Place {
    /// The field.
    pub field: Field,
    /// Its offset in the buffer; 0 for a length, which is measured from there.
    pub offset: u64,
    /// What was found. For [`Field::TrailingBytes`], and where bytes are missing, how many are there.
    pub found: u64,
    /// What was wanted.
    pub wanted: Wanted,
}

/// Why a buffer is refused, or that it is not.
#[derive(Debug, Clone, Copy, PartialEq, Eq, Hash)]
pub enum Why {
    /// It is accepted, and a rowset has the plain form.
    Fine,
    /// A packet that is not there in full.
    More {
        /// Which length is waited for.
        field: Field,
        /// That length, from the packet's first byte.
        length: u64,
    },
    /// It is refused.
    Refused {
        /// By this number, the same in all of Cablefinch.
        number: u64,
        /// At this field.
        place: Place,
    },
    /// A rowset that is accepted, and first breaks the plain form here.
    NotPlain(Place),
}

impl Why {
    fn of(outcome: Outcome) -> Why {
        let [field, offset, found, wanted, kind, ..] = outcome.values;
        let field = Field::of(field);
        let wanted = match kind {
            0 => Wanted::Number(wanted),
            1 => Wanted::LiveTypes,
            _ => Wanted::ValueTypes,
        };
        let place = Place {
            field,
            offset,
            found,
            wanted,
        };
        match outcome.kind {
            ACCEPTED => Why::Fine,
            MORE => Why::More {
                field,
                length: offset,
            },
            NOT_PLAIN => Why::NotPlain(place),
            _ => Why::Refused {
                number: outcome.number,
                place,
            },
        }
    }
}

/// Why the packet at the front of `input` is refused under these limits. Room in a table is not
/// asked for.
pub fn packet(mode: Mode, input: &[u8], max_message_size: u64, max_part_count: u32) -> Why {
    Why::of(sys::why_packet(
        mode as u64,
        input,
        max_message_size,
        max_part_count,
    ))
}

/// Why `input` is refused as a rowset, or what breaks the plain form first.
pub fn rowset(input: &[u8]) -> Why {
    Why::of(sys::why_rowset(input))
}

impl fmt::Display for Field {
    fn fmt(&self, out: &mut fmt::Formatter<'_>) -> fmt::Result {
        out.write_str(self.name())
    }
}

impl fmt::Display for Wanted {
    fn fmt(&self, out: &mut fmt::Formatter<'_>) -> fmt::Result {
        match self {
            Wanted::Number(number) => write!(out, "{number}"),
            Wanted::LiveTypes => out.write_str("0-1"),
            Wanted::ValueTypes => out.write_str("2-6,16-18"),
        }
    }
}

impl fmt::Display for Place {
    fn fmt(&self, out: &mut fmt::Formatter<'_>) -> fmt::Result {
        let Place {
            field,
            offset,
            found,
            wanted,
        } = self;
        write!(out, "{field} {offset} {found} {wanted}")
    }
}

impl fmt::Display for Why {
    fn fmt(&self, out: &mut fmt::Formatter<'_>) -> fmt::Result {
        match self {
            Why::Fine => out.write_str("ok"),
            Why::More { field, length } => write!(out, "more {field} {length}"),
            Why::Refused { number, place } => write!(out, "refused {number} {place}"),
            Why::NotPlain(place) => write!(out, "not-plain {place}"),
        }
    }
}
