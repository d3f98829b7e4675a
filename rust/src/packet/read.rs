//! Reading packets: a probe of the headers, and decoding with a table that is kept or made anew.

use super::{
    DEFAULT_MAX_PART_COUNT, FIXED_HEADER_SIZE, Mode, NULL_PART_SIZE, Packet, PacketError,
    PacketFlags, PacketType, Parts, Refusal, Repr, WIDTH, range,
};
use crate::guid::Guid;
use crate::sys::{self, Outcome};
use crate::table::{self, count};
use std::borrow::Cow;
use std::ops::Range;

/// A packet beside the bytes that it consumed.
#[derive(Debug, Clone, PartialEq, Eq)]
pub struct Decoded<'a> {
    /// The packet, over the buffer that it was read from.
    pub packet: Packet<'a>,
    /// How many bytes the packet takes at the front of the buffer.
    pub consumed: usize,
}

/// What [`ready`] says of the front of a buffer. It borrows nothing.
#[derive(Debug, Clone, Copy, PartialEq, Eq)]
pub enum Ready {
    /// A whole packet is there, and takes this many bytes. Its headers were accepted; the checksums
    /// of its parts are for [`Decoder::decode`].
    Whole(usize),
    /// At least this many bytes more are needed, which is never 0.
    More(usize),
}

/// Looks at the headers at the front of `input`: how many bytes the packet takes, or how many more
/// are needed at least, or the refusal that [`decode`] gives before it looks at a part.
pub fn ready(mode: Mode, input: &[u8], max_message_size: u64) -> Result<Ready, Refusal> {
    ready_with(mode, input, max_message_size, DEFAULT_MAX_PART_COUNT)
}

/// The same with at most `max_part_count` parts.
pub fn ready_with(
    mode: Mode,
    input: &[u8],
    max_message_size: u64,
    max_part_count: u32,
) -> Result<Ready, Refusal> {
    let Some(front) = Front::of(input) else {
        return Ok(Ready::More(FIXED_HEADER_SIZE.saturating_sub(input.len())));
    };
    // The library is shown the headers alone and no table, so that no part is summed. All that it
    // has left to say of headers that it accepts is need-more, or 17 where no part has bytes.
    let shown = input.get(..front.headers).unwrap_or(input);
    let outcome = sys::decode_with(
        mode as u64,
        shown,
        max_message_size,
        max_part_count,
        &mut [],
    );
    match (outcome.kind, outcome.number) {
        (sys::ACCEPTED, _) | (_, 17) => Ok(Ready::Whole(front.headers)),
        (sys::MORE, _) => {
            let needed = front.whole(input).unwrap_or(front.headers);
            Ok(match needed.saturating_sub(input.len()) {
                0 => Ready::Whole(needed),
                more => Ready::More(more),
            })
        }
        _ => Err(Refusal::of(&outcome)),
    }
}

/// What the fixed header declares, before any of it is checked.
struct Front {
    parts: usize,
    /// The bytes of both headers.
    headers: usize,
}

impl Front {
    fn of(input: &[u8]) -> Option<Self> {
        let fixed: &[u8; FIXED_HEADER_SIZE] = input.first_chunk()?;
        let [.., a, b, c, d, _, _, _, _, _, _, _, _] = *fixed;
        let parts = u32::from_le_bytes([a, b, c, d]) as usize;
        let message = [fixed[4], fixed[5]] == (PacketType::Message as u16).to_le_bytes();
        Some(Self {
            parts,
            headers: super::write::headers(message, parts),
        })
    }

    /// The bytes of the whole packet, where both headers are there to say so.
    fn whole(&self, input: &[u8]) -> Option<usize> {
        let headers = input.get(..self.headers)?;
        let sizes = headers.get(FIXED_HEADER_SIZE..).unwrap_or_default();
        let payload = sizes
            .chunks_exact(4)
            .take(self.parts)
            .map(|size| size.try_into().map_or(0, u32::from_le_bytes))
            .filter(|&size| size != NULL_PART_SIZE)
            .fold(0usize, |sum, size| sum.saturating_add(size as usize));
        Some(self.headers.saturating_add(payload))
    }

    /// The parts to make room for, beyond `room`: those of a packet that is whole. So nothing is
    /// reserved on a peer's word alone, and the library reads no packet twice.
    fn room(input: &[u8], ceiling: u32, room: usize) -> usize {
        let Some(front) = Self::of(input) else {
            return 0;
        };
        if front.parts <= room || front.parts > ceiling as usize {
            return 0;
        }
        match front.whole(input) {
            Some(whole) if whole <= input.len() => front.parts,
            _ => 0,
        }
    }
}

impl Refusal {
    fn of(outcome: &Outcome) -> Self {
        Self {
            error: PacketError::of(outcome),
            consumed: count(outcome.count),
        }
    }
}

/// Reads packets, and keeps its table of parts from one to the next. It is made for one mode:
/// [`Decoder::live`] for a live socket, [`Decoder::archive`] for what was stored.
///
/// The table has 24 bytes for each part of the largest packet that was read, and at most twice that
/// is held: no more than 2 MiB under [`DEFAULT_MAX_PART_COUNT`]. It grows for a packet that is
/// whole, never on what a header declares. [`Decoder::memory`] says what is held,
/// [`Decoder::shrink_to`] gives it back.
#[derive(Debug, Clone)]
pub struct Decoder {
    mode: Mode,
    words: Vec<u64>,
    /// How many parts of the table are those of the last packet.
    parts: usize,
}

/// What the library answers of an accepted packet, its parts aside.
struct Header {
    packet_type: PacketType,
    flags: PacketFlags,
    id: Guid,
    consumed: usize,
}

impl Decoder {
    /// A decoder for a live peer, without a table yet: it refuses the retired type.
    pub const fn live() -> Self {
        Self::of(Mode::Live)
    }

    /// A decoder for an archive, without a table yet: it reads every type, as the original does.
    pub const fn archive() -> Self {
        Self::of(Mode::Archive)
    }

    const fn of(mode: Mode) -> Self {
        Self {
            mode,
            words: Vec::new(),
            parts: 0,
        }
    }

    /// Reads one packet from the front of `input`, or `None` where more bytes are needed; at most
    /// `max_message_size` bytes and [`DEFAULT_MAX_PART_COUNT`] parts are taken.
    pub fn decode<'a>(
        &'a mut self,
        input: &'a [u8],
        max_message_size: u64,
    ) -> Result<Option<Decoded<'a>>, Refusal> {
        self.decode_with(input, max_message_size, DEFAULT_MAX_PART_COUNT)
    }

    /// The same with at most `max_part_count` parts.
    pub fn decode_with<'a>(
        &'a mut self,
        input: &'a [u8],
        max_message_size: u64,
        max_part_count: u32,
    ) -> Result<Option<Decoded<'a>>, Refusal> {
        let header = self.read(input, max_message_size, max_part_count)?;
        Ok(header.map(|header| header.over(input, Cow::Borrowed(self.entries()))))
    }

    /// How many bytes of memory the table holds.
    pub fn memory(&self) -> usize {
        table::memory(&self.words)
    }

    /// Gives back the memory beyond that for `parts` parts.
    pub fn shrink_to(&mut self, parts: usize) {
        table::shrink(&mut self.words, parts.saturating_mul(WIDTH));
        self.parts = self.parts.min(parts);
    }

    fn read(&mut self, input: &[u8], limit: u64, ceiling: u32) -> Result<Option<Header>, Refusal> {
        self.parts = 0;
        // Where there is no memory for it, 17 says so below.
        let parts = Front::room(input, ceiling, self.words.len() / WIDTH);
        table::grow(&mut self.words, parts.saturating_mul(WIDTH));
        let outcome = sys::decode_with(self.mode as u64, input, limit, ceiling, &mut self.words);
        match outcome.kind {
            sys::ACCEPTED => {
                let [.., parts] = outcome.values;
                self.parts = count(parts);
                Ok(Some(Header::of(&outcome)))
            }
            sys::MORE => Ok(None),
            _ => Err(Refusal::of(&outcome)),
        }
    }

    /// Where each part of the last packet lies in the input that it was read from, a null part as
    /// `None`: for a caller that keeps the buffer and not the borrow. To flatten it would lose the
    /// null parts. There is none where the last call gave no packet.
    pub fn ranges(&self) -> impl ExactSizeIterator<Item = Option<Range<usize>>> + '_ {
        self.entries().chunks_exact(WIDTH).map(range)
    }

    /// The table's entries of the last packet.
    fn entries(&self) -> &[u64] {
        self.words
            .get(..self.parts.saturating_mul(WIDTH))
            .unwrap_or_default()
    }
}

impl Header {
    fn of(outcome: &Outcome) -> Self {
        let [kind, flags, a, b, c, d, _] = outcome.values;
        Self {
            // A type above 2 is refused.
            packet_type: match kind {
                0 => PacketType::Message,
                1 => PacketType::Ack,
                _ => PacketType::SslAck,
            },
            flags: PacketFlags(flags as u16),
            id: Guid::from_wire_words([a, b, c, d].map(|word| word as u32)),
            consumed: count(outcome.count),
        }
    }

    fn over<'a>(self, input: &'a [u8], words: Cow<'a, [u64]>) -> Decoded<'a> {
        Decoded {
            packet: Packet {
                packet_type: self.packet_type,
                flags: self.flags,
                id: self.id,
                parts: Parts(Repr::Table { input, words }),
            },
            consumed: self.consumed,
        }
    }
}

/// Reads one packet as [`Decoder::decode`] does, with a table of its own: the packet borrows
/// `input` alone.
pub fn decode(
    mode: Mode,
    input: &[u8],
    max_message_size: u64,
) -> Result<Option<Decoded<'_>>, Refusal> {
    decode_with(mode, input, max_message_size, DEFAULT_MAX_PART_COUNT)
}

/// Reads one packet as [`Decoder::decode_with`] does, with a table of its own: the packet borrows
/// `input` alone.
pub fn decode_with(
    mode: Mode,
    input: &[u8],
    max_message_size: u64,
    max_part_count: u32,
) -> Result<Option<Decoded<'_>>, Refusal> {
    let mut decoder = Decoder::of(mode);
    let header = decoder.read(input, max_message_size, max_part_count)?;
    Ok(header.map(|header| {
        decoder.words.truncate(decoder.parts.saturating_mul(WIDTH));
        header.over(input, Cow::Owned(decoder.words))
    }))
}
