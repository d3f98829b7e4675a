//! GUIDs: sixteen bytes, four little-endian words, printed from the last word to the first.

mod error;

pub use error::{ParseGuidError, Reason};

use crate::sys;
use crate::table;
use std::collections::hash_map::RandomState;
use std::fmt;
use std::hash::{BuildHasher, Hasher};
use std::str::FromStr;

/// The most bytes of a GUID's text: four words of eight digits, and three dashes.
pub const MAX_TEXT_LENGTH: usize = 35;

/// A GUID, held as its sixteen wire bytes.
#[derive(Debug, Clone, Copy, PartialEq, Eq, PartialOrd, Ord, Hash, Default)]
pub struct Guid(pub [u8; 16]);

impl Guid {
    /// All zeros, which means "none" in several fields.
    pub const NULL: Self = Self([0; 16]);

    /// The four words, in wire order.
    pub fn parts(&self) -> [u32; 4] {
        let [a, b, c, d, ..] = sys::guid_parts(&self.0).values;
        [a, b, c, d].map(low)
    }

    /// The GUID of four words, in wire order.
    pub fn from_parts(parts: [u32; 4]) -> Self {
        let mut id = Self::NULL;
        sys::guid_from_parts(parts, &mut id.0);
        id
    }

    /// The same without a call of the library, which would take as long again as the rest of a packet
    /// without parts.
    pub(crate) fn from_wire_words(words: [u32; 4]) -> Self {
        let mut id = Self::NULL;
        for (bytes, word) in id.0.chunks_exact_mut(size_of::<u32>()).zip(words) {
            bytes.copy_from_slice(&word.to_le_bytes());
        }
        id
    }

    /// The two halves of eight bytes each.
    pub fn halves(&self) -> (u64, u64) {
        let [first, second, ..] = sys::guid_halves(&self.0).values;
        (first, second)
    }

    /// The GUID of two halves.
    pub fn from_halves(first: u64, second: u64) -> Self {
        let mut id = Self::NULL;
        sys::guid_from_halves(first, second, &mut id.0);
        id
    }

    /// The GUID of sixteen wire bytes.
    pub const fn from_bytes(bytes: [u8; 16]) -> Self {
        Self(bytes)
    }

    /// The sixteen wire bytes.
    pub const fn to_bytes(self) -> [u8; 16] {
        self.0
    }

    /// A fresh id in the original's layout (version 4). Unlikely to come twice, but no secret: it is
    /// drawn from the seeds that std gives its hash tables.
    pub fn random() -> Self {
        let draw = || RandomState::new().build_hasher().finish();
        let mut id = Self::from_halves(draw(), draw());
        id.0[6] = id.0[6] & 0x0f | 0x40;
        id.0[8] = id.0[8] & 0x3f | 0x80;
        id
    }

    /// The GUID as a protobuf message of the caller's, which is made from a GUID (by its halves).
    pub fn to_proto<M: From<Self>>(self) -> M {
        M::from(self)
    }

    /// The GUID of a protobuf message of the caller's.
    pub fn from_proto<'m, M>(message: &'m M) -> Self
    where
        Self: From<&'m M>,
    {
        Self::from(message)
    }

    /// Whether all of it is zero.
    pub fn is_null(&self) -> bool {
        sys::guid_is_null(&self.0)
    }

    /// The text in room of the caller's, for one to whom `to_string` takes too long.
    pub fn text<'r>(&self, room: &'r mut [u8; MAX_TEXT_LENGTH]) -> &'r [u8] {
        let outcome = sys::guid_print(&self.0, room);
        // The room suffices for every GUID, so nothing is refused.
        table::stretch(room, 0..table::count(outcome.count))
    }

    /// Reads a GUID's text from bytes that may be anything: four fields of 1 to 8 hex digits with dashes
    /// between, of either case, leading zeros allowed, and no plus, which the original takes.
    pub fn from_text(text: &[u8]) -> Result<Self, ParseGuidError> {
        let outcome = sys::guid_parse(text);
        if outcome.kind != sys::ACCEPTED {
            return Err(ParseGuidError::of(&outcome, text));
        }
        let [a, b, c, d, ..] = outcome.values;
        Ok(Self::from_parts([a, b, c, d].map(low)))
    }
}

/// A word that the library answers in eight bytes.
fn low(word: u64) -> u32 {
    (word & u64::from(u32::MAX)) as u32
}

impl fmt::Display for Guid {
    fn fmt(&self, formatter: &mut fmt::Formatter<'_>) -> fmt::Result {
        let mut room = [0; MAX_TEXT_LENGTH];
        let text = std::str::from_utf8(self.text(&mut room)).map_err(|_| fmt::Error)?;
        // As the original: no width and no precision is heeded.
        formatter.write_str(text)
    }
}

impl FromStr for Guid {
    type Err = ParseGuidError;

    fn from_str(text: &str) -> Result<Self, Self::Err> {
        Self::from_text(text.as_bytes())
    }
}

impl From<[u8; 16]> for Guid {
    fn from(bytes: [u8; 16]) -> Self {
        Self(bytes)
    }
}

#[cfg(test)]
mod tests {
    use super::*;

    #[test]
    fn prints_backwards() {
        let id = Guid::from_parts([1, 2, 3, 4]);
        assert_eq!(id.to_string(), "4-3-2-1");
        assert_eq!(format!("{id:>9}"), "4-3-2-1");
        assert_eq!(format!("{id:.2}"), "4-3-2-1");
        assert_eq!(Guid::NULL.to_string(), "0-0-0-0");
        assert_eq!(
            Guid([0xff; 16]).to_string(),
            "ffffffff-ffffffff-ffffffff-ffffffff"
        );
    }

    #[test]
    fn reads_what_it_prints() {
        for id in [
            Guid::from_parts([0x10384, 0x3e9_0384, 0xc4f1_a2b3, 7]),
            Guid::NULL,
            Guid([0xff; 16]),
        ] {
            assert_eq!(id.to_string().parse(), Ok(id));
            let mut room = [0; MAX_TEXT_LENGTH];
            assert_eq!(id.text(&mut room), id.to_string().as_bytes());
            assert_eq!(Guid::from_parts(id.parts()), id);
            assert_eq!(Guid::from_wire_words(id.parts()), id);
            let (first, second) = id.halves();
            assert_eq!(Guid::from_halves(first, second), id);
            assert_eq!(Guid::from(id.to_bytes()), id);
            assert_eq!(id.is_null(), id == Guid::NULL);
        }
    }

    #[test]
    fn random_ids_have_the_layout_and_differ() {
        let ids: std::collections::BTreeSet<Guid> = (0..1000).map(|_| Guid::random()).collect();
        assert_eq!(ids.len(), 1000);
        for id in ids {
            assert_eq!((id.0[6] & 0xf0, id.0[8] & 0xc0), (0x40, 0x80));
        }
    }

    #[test]
    fn protobuf_messages_of_the_callers() {
        struct Message(u64, u64);
        impl From<Guid> for Message {
            fn from(id: Guid) -> Self {
                let (first, second) = id.halves();
                Self(first, second)
            }
        }
        impl From<&Message> for Guid {
            fn from(message: &Message) -> Self {
                Self::from_halves(message.0, message.1)
            }
        }
        let id = Guid::from_parts([1, 2, 3, 4]);
        let message: Message = id.to_proto();
        assert_eq!(Guid::from_proto(&message), id);
    }

    #[test]
    fn odd_texts() {
        let id = Guid::from_parts([0xf, 0xa, 0, 0xabcd_ef01]);
        assert_eq!("ABCDEF01-0-A-0000000f".parse(), Ok(id));
        assert_eq!("abcdef01-00-a-F".parse(), Ok(id));
        for text in [
            "123456789-0-0-0",
            "+-0-0-0",
            "+1-2-3-4",
            "ä-0-0-0",
            " 1-2-3-4",
        ] {
            assert!(text.parse::<Guid>().is_err(), "{text}");
        }
        assert!(Guid::from_text(b"\xff-0-0-0").is_err());
    }
}
