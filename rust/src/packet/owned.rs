//! A packet that owns its bytes, for a caller that hands it on.

use super::{Packet, PacketFlags, PacketType, Parts, Repr, entry};
use crate::guid::Guid;
use std::borrow::Cow;

/// A packet with its own copy of its parts' bytes: it outlives the buffer that it was read from.
#[derive(Debug, Clone)]
pub struct OwnedPacket {
    /// What it is.
    pub packet_type: PacketType,
    /// Its flags.
    pub flags: PacketFlags,
    /// Its id.
    pub id: Guid,
    area: Vec<u8>,
    words: Vec<u64>,
}

impl OwnedPacket {
    /// The packet, over the bytes that are owned here.
    pub fn packet(&self) -> Packet<'_> {
        Packet {
            packet_type: self.packet_type,
            flags: self.flags,
            id: self.id,
            parts: Parts(Repr::Table {
                input: &self.area,
                words: Cow::Borrowed(&self.words),
            }),
        }
    }
}

impl Packet<'_> {
    /// The packet with a copy of its parts' bytes; null parts stay null.
    pub fn to_owned_packet(&self) -> OwnedPacket {
        let (mut area, mut words) = (Vec::new(), Vec::new());
        for part in &self.parts {
            words.extend(entry(area.len(), part.map(<[u8]>::len)));
            area.extend_from_slice(part.unwrap_or_default());
        }
        OwnedPacket {
            packet_type: self.packet_type,
            flags: self.flags,
            id: self.id,
            area,
            words,
        }
    }
}

impl PartialEq for OwnedPacket {
    fn eq(&self, other: &Self) -> bool {
        self.packet() == other.packet()
    }
}

impl Eq for OwnedPacket {}
