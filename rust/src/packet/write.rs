//! Writing packets. The library takes all parts from one area of bytes, so parts from several places
//! are copied into one first; those of a decoded packet are not.

use super::{
    ENTRY, FIXED_HEADER_SIZE, MAX_PART_COUNT, MAX_PART_SIZE, Mode, NULL_CHECKSUM, Packet,
    PacketError, PacketType, Part, Repr, entry,
};
use crate::sys::{self, Outcome};
use crate::table;

/// The bytes of both headers: a message has the second always, another packet only with parts.
pub(super) fn headers(message: bool, parts: usize) -> usize {
    const SIZE: usize = size_of::<u32>();
    const CHECKSUM: usize = size_of::<u64>();
    match (message, parts) {
        (false, 0) => FIXED_HEADER_SIZE,
        _ => parts
            .saturating_mul(SIZE + CHECKSUM)
            .saturating_add(FIXED_HEADER_SIZE + CHECKSUM),
    }
}

/// The bytes of a packet whose parts have `payload` bytes together, whether or not it can be
/// written.
fn bytes_of(packet_type: PacketType, parts: usize, payload: usize) -> usize {
    headers(packet_type == PacketType::Message, parts).saturating_add(payload)
}

/// A table of parts and the area that its stretches lie in, kept from one packet to the next.
#[derive(Debug, Clone, Default)]
struct Pieces {
    area: Vec<u8>,
    words: Vec<u64>,
}

/// What of a packet goes to the library, with the packet's size.
struct Laid<'p> {
    area: &'p [u8],
    words: &'p [u64],
    size: usize,
}

impl Pieces {
    const fn new() -> Self {
        Self {
            area: Vec::new(),
            words: Vec::new(),
        }
    }

    /// Lists the parts with their true lengths over the longest, which is returned beside the sum of
    /// the lengths: enough for every check, and nothing is copied.
    fn measure<'p>(
        &mut self,
        parts: impl ExactSizeIterator<Item = Part<'p>>,
    ) -> Result<(&'p [u8], usize), PacketError> {
        self.words.clear();
        let count = parts.len();
        if self
            .words
            .try_reserve(count.saturating_mul(ENTRY / 8))
            .is_err()
        {
            return Err(PacketError::no_room(count, ENTRY));
        }
        let mut longest: &[u8] = &[];
        let mut payload = 0usize;
        for part in parts {
            self.words.extend(entry(0, part.map(<[u8]>::len)));
            let bytes = part.unwrap_or_default();
            payload = payload.saturating_add(bytes.len());
            if bytes.len() > longest.len() {
                longest = bytes;
            }
        }
        Ok((longest, payload))
    }

    /// Whether a packet of these parts can be written at all.
    fn validate<'p>(
        &mut self,
        mode: Mode,
        packet_type: PacketType,
        parts: impl ExactSizeIterator<Item = Part<'p>>,
    ) -> Result<(), PacketError> {
        let (longest, _) = self.measure(parts)?;
        accepted(checked(mode, packet_type, longest, &self.words)).map(|_| ())
    }

    /// Lays the parts one after another into the area, where they do not lie in one stretch already.
    /// A packet that the library would refuse is refused before anything is copied.
    fn lay<'p>(
        &'p mut self,
        mode: Mode,
        packet_type: PacketType,
        parts: impl ExactSizeIterator<Item = Part<'p>> + Clone,
    ) -> Result<Laid<'p>, PacketError> {
        let (longest, payload) = self.measure(parts.clone())?;
        if parts.len() > MAX_PART_COUNT as usize
            || longest.len() > MAX_PART_SIZE as usize
            || packet_type == PacketType::SslAck
        {
            accepted(checked(mode, packet_type, longest, &self.words))?;
        }
        let size = bytes_of(packet_type, parts.len(), payload);
        if payload == longest.len() {
            return Ok(Laid {
                area: longest,
                words: &self.words,
                size,
            });
        }
        self.area.clear();
        if self.area.try_reserve(payload).is_err() {
            return Err(PacketError::no_room(payload, 1));
        }
        self.words.clear();
        for part in parts {
            self.words
                .extend(entry(self.area.len(), part.map(<[u8]>::len)));
            self.area.extend_from_slice(part.unwrap_or_default());
        }
        Ok(Laid {
            area: &self.area,
            words: &self.words,
            size,
        })
    }

    fn of<'p>(&'p mut self, mode: Mode, packet: &'p Packet<'_>) -> Result<Laid<'p>, PacketError> {
        let Repr::Table { input, words } = &packet.parts.0 else {
            return self.lay(mode, packet.packet_type, packet.parts.iter());
        };
        // Read by the library, so that they lie in one area; how large the packet is, it says.
        let size = sys::encoded_size(mode as u64, packet.packet_type as u64, input, words);
        Ok(Laid {
            area: input,
            words,
            size: table::count(accepted(size)?.count),
        })
    }
}

impl Laid<'_> {
    /// Writes the packet to the front of `room`, which has its size.
    fn write(&self, mode: Mode, packet: &Packet<'_>, room: &mut [u8]) -> Result<(), PacketError> {
        accepted(sys::encode(
            mode as u64,
            packet.packet_type as u64,
            packet.flags.0,
            &packet.id.0,
            self.area,
            self.words,
            room,
        ))
        .map(|_| ())
    }
}

fn checked(mode: Mode, packet_type: PacketType, area: &[u8], words: &[u64]) -> Outcome {
    sys::validate(mode as u64, packet_type as u64, area, words)
}

fn accepted(outcome: Outcome) -> Result<Outcome, PacketError> {
    match outcome.kind {
        sys::ACCEPTED => Ok(outcome),
        _ => Err(PacketError::of(&outcome)),
    }
}

/// Whether the packet can be written at all: [`PacketError::RetiredType`],
/// [`PacketError::TooManyParts`] and [`PacketError::PartTooLarge`] tell of one that cannot.
pub fn validate(mode: Mode, packet: &Packet<'_>) -> Result<(), PacketError> {
    match &packet.parts.0 {
        Repr::Table { input, words } => {
            accepted(checked(mode, packet.packet_type, input, words)).map(|_| ())
        }
        _ => Pieces::new().validate(mode, packet.packet_type, packet.parts.iter()),
    }
}

/// How many bytes [`encode`] appends, or why it refuses.
pub fn encoded_size(mode: Mode, packet: &Packet<'_>) -> Result<usize, PacketError> {
    validate(mode, packet)?;
    Ok(size(packet))
}

/// How many bytes the packet's headers and parts have together, whether or not it can be written: the
/// original's `encoded_size`.
pub fn size(packet: &Packet<'_>) -> usize {
    let payload = packet.parts.iter().fold(0usize, |sum, part| {
        sum.saturating_add(part.map_or(0, <[u8]>::len))
    });
    bytes_of(packet.packet_type, packet.parts.len(), payload)
}

/// Writes packets, and keeps its tables and its output from one to the next. It is made for one mode:
/// [`Encoder::live`] for a live peer, [`Encoder::archive`] for an archive.
///
/// It holds at most twice what the largest packet took: its bytes, a copy of its parts where they lay
/// in several places, and 24 bytes for each part. [`Encoder::shrink_to`] gives that back.
#[derive(Debug, Clone)]
pub struct Encoder {
    mode: Mode,
    pieces: Pieces,
    out: Vec<u8>,
}

impl Encoder {
    /// An encoder for a live peer, without tables yet: it refuses the retired type.
    pub const fn live() -> Self {
        Self::of(Mode::Live)
    }

    /// An encoder for an archive, without tables yet: it writes every type, as the original does.
    pub const fn archive() -> Self {
        Self::of(Mode::Archive)
    }

    const fn of(mode: Mode) -> Self {
        Self {
            mode,
            pieces: Pieces::new(),
            out: Vec::new(),
        }
    }

    /// The packet's bytes, which lie in the encoder until its next call. All checksums are computed.
    pub fn encode(&mut self, packet: &Packet<'_>) -> Result<&[u8], PacketError> {
        let laid = self.pieces.of(self.mode, packet)?;
        if !table::grow(&mut self.out, laid.size) {
            return Err(PacketError::no_room(laid.size, 1));
        }
        let room = self.out.get_mut(..laid.size).unwrap_or_default();
        laid.write(self.mode, packet, room)?;
        Ok(room)
    }

    /// Appends the packet's bytes to `out`, which a refusal leaves as it was.
    pub fn encode_into(
        &mut self,
        packet: &Packet<'_>,
        out: &mut Vec<u8>,
    ) -> Result<(), PacketError> {
        let start = out.len();
        let written = self.encode_to(packet, |size| {
            out.try_reserve(size).ok()?;
            out.resize(start + size, 0);
            out.get_mut(start..)
        });
        if written.is_err() {
            out.truncate(start);
        }
        written
    }

    /// Writes the packet's bytes into the room that `room` gives for so many, where it gives any: for
    /// buffers of another kind.
    pub fn encode_to<'r>(
        &mut self,
        packet: &Packet<'_>,
        room: impl FnOnce(usize) -> Option<&'r mut [u8]>,
    ) -> Result<(), PacketError> {
        let laid = self.pieces.of(self.mode, packet)?;
        match room(laid.size) {
            Some(room) => laid.write(self.mode, packet, room),
            None => Err(PacketError::no_room(laid.size, 1)),
        }
    }

    /// How many bytes of memory are held.
    pub fn memory(&self) -> usize {
        table::memory(&self.pieces.area)
            .saturating_add(table::memory(&self.pieces.words))
            .saturating_add(table::memory(&self.out))
    }

    /// Gives back, of each of the three, the memory beyond `bytes`.
    pub fn shrink_to(&mut self, bytes: usize) {
        table::shrink(&mut self.pieces.area, bytes);
        table::shrink(&mut self.pieces.words, bytes / size_of::<u64>());
        table::shrink(&mut self.out, bytes);
    }
}

/// Appends the packet's bytes to `out`, which a refusal leaves as it was. All checksums are
/// computed.
///
/// Parts from several places are first copied into one area; those of a decoded packet are not. An
/// [`Encoder`] keeps that area for the next packet.
pub fn encode(mode: Mode, packet: &Packet<'_>, out: &mut Vec<u8>) -> Result<(), PacketError> {
    Encoder::of(mode).encode_into(packet, out)
}

/// The checksum word of a part: that of its bytes, and [`NULL_CHECKSUM`] for a null one.
pub fn part_checksum(part: Part<'_>) -> u64 {
    part.map_or(NULL_CHECKSUM, sys::checksum)
}
