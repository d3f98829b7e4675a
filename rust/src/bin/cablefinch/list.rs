//! `cablefinch list`: the lines of the proved program `list`, for input of any length.

use crate::arguments::Arguments;
use crate::input::{self, Input, PIECE};
use crate::limits::{Given, Limits, SHORT};
use crate::screen::{Colour, Screen};
use crate::words::ROWS;
use crate::{Stop, Verdict};
use cablefinch::Guid;
use cablefinch::packet::{
    self, Decoder, FIXED_HEADER_SIZE, Guard, MAX_PART_COUNT, Mode, Packet, PacketError, Part, Ready,
};
use cablefinch::shown::{Node, Quoted};
use cablefinch::wire::{self, UnversionedValue, Value};
use cablefinch::yson;
use std::io::{self, Write as _};

/// `cablefinch list FILE..`.
pub fn run(arguments: &Arguments, screen: &mut Screen) -> Result<Verdict, Stop> {
    let mut listing = Listing {
        given: Given::of(arguments)?,
        rowsets: arguments.has(&ROWS).then(wire::Decoder::new),
        packets: Decoder::archive(),
        line: Line::new(),
    };
    let several = arguments.operands().len() > 1;
    input::each(arguments.operands(), screen, |input, screen| {
        if several {
            let _ = writeln!(screen.text(), "== {}", input.name);
        }
        listing.list(input, screen)
    })
}

struct Listing {
    given: Given,
    /// Where rows are asked for.
    rowsets: Option<wire::Decoder>,
    packets: Decoder,
    line: Line,
}

impl Listing {
    fn list(&mut self, input: Input, screen: &mut Screen) -> Result<Verdict, Stop> {
        let mut pieces = Pieces::of(input);
        // One byte more than the proved program lists, so that longer input shows.
        let long = pieces.wait(SHORT + 1, screen)?;
        let limits = self.given.limits(long);
        loop {
            let offset = pieces.offset;
            if pieces.rest().is_empty() && !pieces.wait(1, screen)? {
                screen.paint(Colour::Green, "end");
                let _ = writeln!(screen.text(), " {offset}");
                return Ok(Verdict::Right);
            }
            match self
                .packets
                .decode_with(pieces.rest(), limits.bytes, limits.parts)
            {
                Ok(Some(decoded)) => {
                    self.line.packet(offset, &decoded.packet);
                    screen.text().extend_from_slice(self.line.bytes());
                    part_lines(&decoded.packet, &mut self.line, &mut self.rowsets, screen)?;
                    let consumed = decoded.consumed;
                    pieces.take(consumed);
                    screen.settle()?;
                }
                Ok(None) => {
                    let wanted = wanted(pieces.rest(), limits);
                    if pieces.wait(wanted, screen)? {
                        continue;
                    }
                    screen.paint(Colour::Yellow, "more");
                    let _ = writeln!(screen.text(), " {offset}");
                    let there = pieces.rest().len();
                    let missing = wanted - there;
                    let message = format!(
                        "the packet at byte {offset} is not whole\n    {there} bytes of it are there, and at \
                         least {missing} are missing: fetch the file again, to its end"
                    );
                    screen.tell(pieces.input.told(), &message)?;
                    return Ok(Verdict::Refused);
                }
                Err(refusal) => {
                    let number = refusal.code();
                    screen.paint(Colour::Red, "refused");
                    let _ = writeln!(screen.text(), " {offset} {number}");
                    let advice = advice(&refusal.error, offset);
                    let message = format!(
                        "the packet at byte {offset} is refused by {number}\n    {refusal}\n    {advice}"
                    );
                    screen.tell(pieces.input.told(), &message)?;
                    return Ok(Verdict::Refused);
                }
            }
        }
    }
}

/// How many bytes a packet that is not whole has at least. Its headers are accepted or not there, so nothing
/// else is answered.
fn wanted(rest: &[u8], limits: Limits) -> usize {
    let more = match packet::ready_with(Mode::Archive, rest, limits.bytes, limits.parts) {
        Ok(Ready::More(more)) => more,
        Ok(Ready::Whole(_)) | Err(_) => 1,
    };
    rest.len().saturating_add(more)
}

fn part_lines(
    packet: &Packet<'_>,
    line: &mut Line,
    rowsets: &mut Option<wire::Decoder>,
    screen: &mut Screen,
) -> Result<(), Stop> {
    for (index, part) in packet.parts.iter().enumerate() {
        line.part(index, part, packet.parts.guard(index));
        screen.text().extend_from_slice(line.bytes());
        if let (Some(part), Some(rowsets)) = (part, &mut *rowsets) {
            rows(part, rowsets, screen)?;
        }
        screen.settle()?;
    }
    Ok(())
}

fn rows(part: &[u8], rowsets: &mut wire::Decoder, screen: &mut Screen) -> Result<(), Stop> {
    let rowset = match rowsets.decode_rowset(part) {
        Ok(rowset) => rowset,
        Err(error) => {
            let _ = writeln!(screen.text(), "no rowset {}", error.code());
            return Ok(());
        }
    };
    let _ = writeln!(screen.text(), "rowset {}", rowset.len());
    for (index, row) in rowset.rows().enumerate() {
        let text = screen.text();
        let _ = write!(text, "row {index}");
        match row {
            None => text.extend_from_slice(b" null"),
            Some(row) if row.is_empty() => text.extend_from_slice(b" empty"),
            Some(row) => {
                for value in row.values() {
                    put_value(text, &value);
                }
            }
        }
        text.push(b'\n');
        screen.settle()?;
    }
    Ok(())
}

/// A value: its column, whether it is an aggregate, and what it is, as in YSON's text form.
fn put_value(text: &mut Vec<u8>, value: &UnversionedValue<'_>) {
    let mark = if value.aggregate { "!" } else { "" };
    let _ = write!(text, " {}={mark}", value.id);
    let _ = match value.value {
        Value::Null => write!(text, "#"),
        Value::Int64(number) => write!(text, "{number}"),
        Value::Uint64(number) => write!(text, "{number}u"),
        Value::Double(number) => write!(text, "{number:?}"),
        Value::Boolean(truth) => write!(text, "%{truth}"),
        Value::String(bytes) => write!(text, "{}", Quoted(bytes)),
        Value::Any(bytes) => put_node(text, "any", bytes),
        Value::Composite(bytes) => put_node(text, "composite", bytes),
    };
}

/// What should be YSON; where it is none, a question mark and its bytes.
fn put_node(text: &mut Vec<u8>, kind: &str, bytes: &[u8]) -> io::Result<()> {
    match yson::check(bytes) {
        Ok(_) => write!(text, "{kind}({})", Node(bytes)),
        Err(_) => write!(text, "{kind}?({})", Quoted(bytes)),
    }
}

/// A line of packets or parts, put together without the machinery of `write!`: for small packets it takes
/// longer than to read them.
struct Line {
    /// The longest line is a packet's: a word, four numbers of at most 50 digits in all, an id of 35 bytes.
    room: [u8; 128],
    end: usize,
}

impl Line {
    fn new() -> Self {
        Self {
            room: [0; 128],
            end: 0,
        }
    }

    /// The line of a packet in place of what it was.
    fn packet(&mut self, offset: u64, packet: &Packet<'_>) {
        self.end = 0;
        self.put(b"packet ");
        self.number(offset, b' ');
        self.number(packet.packet_type as u64, b' ');
        self.number(u64::from(packet.flags.0), b' ');
        self.id(&packet.id);
        self.number(packet.parts.len() as u64, b'\n');
    }

    /// The line of a part in place of what it was.
    fn part(&mut self, index: usize, part: Part<'_>, guard: Option<Guard>) {
        self.end = 0;
        self.put(b"part ");
        self.number(index as u64, b' ');
        let Some(part) = part else {
            self.put(b"null\n");
            return;
        };
        self.number(part.len() as u64, b' ');
        self.put(match guard {
            Some(Guard::Guarded(_)) => b"guarded\n",
            _ => b"bare\n",
        });
    }

    fn bytes(&self) -> &[u8] {
        &self.room[..self.end]
    }

    fn put(&mut self, bytes: &[u8]) {
        self.room[self.end..][..bytes.len()].copy_from_slice(bytes);
        self.end += bytes.len();
    }

    /// A number, and the byte behind it.
    fn number(&mut self, mut number: u64, after: u8) {
        /// The most digits of a number.
        const MOST: usize = 20;
        if number < 10 {
            self.put(&[b'0' + number as u8, after]);
            return;
        }
        // Right to left before the byte behind it, two digits at a division; then as many bytes are copied as
        // the longest number has, since a copy of a known length is no call.
        let mut digits = [after; 2 * MOST + 1];
        let mut from = MOST;
        while number >= 10 {
            from -= 2;
            digits[from..][..2].copy_from_slice(&PAIRS[(number % 100) as usize]);
            number /= 100;
        }
        if number > 0 {
            from -= 1;
            digits[from] = b'0' + number as u8;
        }
        self.room[self.end..][..=MOST].copy_from_slice(&digits[from..][..=MOST]);
        self.end += MOST + 1 - from;
    }

    /// An id, and a space behind it.
    fn id(&mut self, id: &Guid) {
        // There is room for every line, so that there is for the longest text.
        if let Some(room) = self.room[self.end..].first_chunk_mut() {
            self.end += id.text(room).len();
        }
        self.put(b" ");
    }
}

/// The numbers below 100, of two digits each.
const PAIRS: [[u8; 2]; 100] = {
    let mut pairs = [[0; 2]; 100];
    let mut number = 0;
    while number < 100 {
        pairs[number] = [b'0' + (number / 10) as u8, b'0' + (number % 10) as u8];
        number += 1;
    }
    pairs
};

/// What to do about a refusal.
fn advice(error: &PacketError, offset: u64) -> String {
    match *error {
        PacketError::Signature(_) if offset == 0 => {
            "is it a file of packets? `cablefinch sum` takes any file".to_string()
        }
        PacketError::TooManyParts { count } if count <= MAX_PART_COUNT => {
            format!("`--max-parts {count}` takes it")
        }
        PacketError::MessageTooLarge { size, .. } => format!("`--max-bytes {size}` takes it"),
        PacketError::FixedHeaderChecksum { .. }
        | PacketError::VariableHeaderChecksum { .. }
        | PacketError::PartChecksum { .. } => {
            "its bytes were damaged, and nothing behind it is read: fetch the file again"
                .to_string()
        }
        PacketError::NoRoom { .. } => "end other programs, or use a larger machine".to_string(),
        _ => format!(
            "`tail -c +{} FILE | head -c {FIXED_HEADER_SIZE} | xxd` shows its header",
            offset.saturating_add(1)
        ),
    }
}

/// An input's bytes, of which those from some packet on are there.
struct Pieces {
    input: Input,
    bytes: Vec<u8>,
    /// The bytes that are there and not yet taken.
    start: usize,
    end: usize,
    /// Where they begin in the input.
    offset: u64,
    /// Whether the input has ended. A file that grows meanwhile is read no further.
    ended: bool,
}

impl Pieces {
    fn of(input: Input) -> Self {
        Self {
            input,
            bytes: Vec::new(),
            start: 0,
            end: 0,
            offset: 0,
            ended: false,
        }
    }

    fn rest(&self) -> &[u8] {
        &self.bytes[self.start..self.end]
    }

    /// Goes on behind a packet.
    fn take(&mut self, count: usize) {
        self.start += count;
        self.offset += count as u64;
    }

    /// Reads on until so many bytes are there, or tells that the input ends before. The buffer grows to
    /// twice what is there at most, so that nothing is reserved for what a header declares alone.
    fn wait(&mut self, length: usize, screen: &mut Screen) -> Result<bool, Stop> {
        while self.rest().len() < length && !self.ended {
            if self.bytes.len() - self.start < length && self.start > 0 {
                self.bytes.copy_within(self.start..self.end, 0);
                self.end -= self.start;
                self.start = 0;
            }
            if self.end == self.bytes.len() {
                let room = length.min(self.bytes.len().saturating_mul(2)).max(PIECE);
                self.input.grow(&mut self.bytes, room)?;
            }
            let count = self.input.read(&mut self.bytes[self.end..], screen)?;
            self.end += count;
            self.ended = count == 0;
        }
        Ok(self.rest().len() >= length)
    }
}
