//! Packets over `bytes`, as in the original's `bus/packet.rs`.

use bytes::{Buf, Bytes, BytesMut};
use cablefinch::guid::Guid;
use cablefinch::packet as lent;

pub use lent::{
    DEFAULT_MAX_PART_COUNT, FIXED_HEADER_SIZE, MAX_PART_COUNT, MAX_PART_SIZE, NULL_CHECKSUM,
    NULL_PART_SIZE, PacketError, PacketFlags, PacketType, SIGNATURE,
};

/// A packet that shares the memory of the buffer it was read from.
#[derive(Debug, Clone, PartialEq, Eq)]
pub struct Packet {
    /// What it is.
    pub packet_type: PacketType,
    /// Its flags.
    pub flags: PacketFlags,
    /// Its id, which for a message is the event's.
    pub id: Guid,
    /// Its parts: `None` is a null part, which is not one of no bytes. To flatten them would lose the
    /// null ones.
    pub parts: Vec<Option<Bytes>>,
}

impl Packet {
    /// A message of the given parts.
    pub fn message(id: Guid, parts: Vec<Option<Bytes>>, flags: PacketFlags) -> Self {
        Self {
            packet_type: PacketType::Message,
            flags,
            id,
            parts,
        }
    }

    /// The same packet, its parts lent.
    fn lend(&self) -> lent::Packet<'_> {
        let parts: Vec<lent::Part<'_>> = self.parts.iter().map(Option::as_deref).collect();
        lent::Packet {
            packet_type: self.packet_type,
            flags: self.flags,
            id: self.id,
            parts: parts.into(),
        }
    }
}

/// Takes one packet off the front of `input`, or none where more bytes are needed, and nothing is
/// removed then.
///
/// After an error close the connection: what is left in `input` is no place to read on from
/// ([`cablefinch::packet::Refusal`] says why).
pub fn decode(input: &mut BytesMut, max_message_size: u64) -> Result<Option<Packet>, PacketError> {
    decode_with(input, max_message_size, DEFAULT_MAX_PART_COUNT)
}

/// The same with at most `max_part_count` parts.
pub fn decode_with(
    input: &mut BytesMut,
    max_message_size: u64,
    max_part_count: u32,
) -> Result<Option<Packet>, PacketError> {
    let mut decoder = lent::Decoder::archive();
    let (mut packet, consumed) = match decoder.decode_with(input, max_message_size, max_part_count)
    {
        Ok(None) => return Ok(None),
        Ok(Some(decoded)) => {
            let lent::Packet {
                packet_type,
                flags,
                id,
                ..
            } = decoded.packet;
            let parts = Vec::new();
            let packet = Packet {
                packet_type,
                flags,
                id,
                parts,
            };
            (packet, decoded.consumed)
        }
        Err(refusal) => {
            // As the original, which has removed these by then.
            input.advance(refusal.consumed.min(input.len()));
            return Err(refusal.error);
        }
    };
    let consumed = consumed.min(input.len());
    if decoder.ranges().len() == 0 {
        input.advance(consumed);
        return Ok(Some(packet));
    }
    let bytes = input.split_to(consumed).freeze();
    // The library answers stretches of what was read, so that no range lies outside.
    let part = |range: std::ops::Range<usize>| match range.end <= bytes.len() {
        true => bytes.slice(range),
        false => Bytes::new(),
    };
    packet.parts = decoder.ranges().map(|range| range.map(part)).collect();
    Ok(Some(packet))
}

/// Appends the packet's bytes to `out`, which a refusal leaves as it was. All checksums are computed.
pub fn encode(packet: &Packet, out: &mut BytesMut) -> Result<(), PacketError> {
    let start = out.len();
    let written = lent::Encoder::archive().encode_to(&packet.lend(), |size| {
        out.resize(start + size, 0);
        out.get_mut(start..)
    });
    if written.is_err() {
        out.truncate(start);
    }
    written
}

/// Whether the packet can be written at all.
pub fn validate(packet: &Packet) -> Result<(), PacketError> {
    lent::validate(lent::Mode::Archive, &packet.lend())
}

/// How many bytes [`encode`] appends. Like the original's, it also answers for a packet that cannot be
/// written.
pub fn encoded_size(packet: &Packet) -> usize {
    lent::size(&packet.lend())
}

/// The checksum word of a part: that of its bytes, and [`NULL_CHECKSUM`] for a null one.
pub fn part_checksum(part: Option<&Bytes>) -> u64 {
    lent::part_checksum(part.map(|bytes| &bytes[..]))
}
