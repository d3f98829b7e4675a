//! Answers the comparison's cases with the Rust at the pinned commit: cases on standard input, one
//! a line, and one answer line for each. The Rust is called and its results are written down; no
//! answer is worked out here. Where the Rust has none (short room, a table that breaks a rule, the
//! plain-form check, YSON, error messages, term lists, text that is no UTF-8, a start past the end,
//! type 2 in live mode), the answer is `skip`; where document 02 departs from the Rust, `excepted`.

#[allow(dead_code)]
#[path = "../../text.rs"]
mod text;

use std::io;
use std::panic::{AssertUnwindSafe, catch_unwind};

use bytes::{Bytes, BytesMut};
use oracle::bus::packet::{self, Packet, PacketError, PacketFlags, PacketType};
use oracle::crc64::{self, Crc64};
use oracle::guid::Guid;
use oracle::wire::{self, MaybeRow, UnversionedValue, Value, ValueType, WireError};
use text::{
    BadCase, answer_lines, commas, hex_or_dash, narrow, number, read_bytes, read_id, read_register,
    read_words, words, zeros,
};

const NULL: u64 = u64::MAX;
/// The words of a part in a table.
const PART: usize = 3;

/// Why a case got no answer: it is no case, the Rust has none, or its answer does not count.
enum Without {
    BadCase,
    Skip,
    Excepted,
}

type Outcome = Result<String, Without>;

fn main() -> io::Result<()> {
    answer_lines(
        |line| match catch_unwind(AssertUnwindSafe(|| answer(line))) {
            Ok(Ok(text)) => text,
            Ok(Err(Without::BadCase)) => "bad case".to_string(),
            Ok(Err(Without::Skip)) => "skip".to_string(),
            Ok(Err(Without::Excepted)) => "excepted".to_string(),
            Err(_) => "panicked".to_string(),
        },
    )
}

fn answer(line: &[u8]) -> Outcome {
    let case: Vec<&[u8]> = line.split(|&byte| byte == b' ').collect();
    let (kind, live) = mode_of(case[0]);
    match (kind, &case[1..]) {
        (b"crc", stretches) if !stretches.is_empty() => crc(stretches),
        (b"checksum", [bytes]) => Ok(format!("ok {:016x}", crc64::checksum(&read_bytes(bytes)?))),
        (b"guid-print", [id]) => Ok(format!("ok {}", guid(id)?)),
        (b"guid-read", [text]) => guid_read(&read_bytes(text)?),
        (b"guid-parts", [id]) => guid_parts(guid(id)?),
        (b"packet", [limit, ceiling, room, bytes]) => {
            let ceiling = narrow(number(ceiling)?, u64::from(u32::MAX))? as u32;
            packet_read(live, number(limit)?, Some(ceiling), number(room)?, bytes)
        }
        (b"packet-default", [limit, room, bytes]) => {
            packet_read(live, number(limit)?, None, number(room)?, bytes)
        }
        (b"packet-write", [kind, flags, id, room, area, parts]) => {
            let room = number(room)?;
            packet_write(&packet_of(live, kind, flags, id, area, parts)?, room)
        }
        (b"packet-size", [kind, flags, id, area, parts]) => {
            let packet = packet_of(live, kind, flags, id, area, parts)?;
            Ok(match packet::validate(&packet) {
                Ok(()) => format!("ok {}", packet::encoded_size(&packet)),
                Err(error) => packet_refusal(error, None),
            })
        }
        (b"validate", [kind, flags, id, area, parts]) => {
            let packet = packet_of(live, kind, flags, id, area, parts)?;
            Ok(match packet::validate(&packet) {
                Ok(()) => "ok".to_string(),
                Err(error) => packet_refusal(error, None),
            })
        }
        (b"part", [index, bytes, parts]) => part(number(index)?, bytes, parts),
        (b"contains", [flags, other]) => {
            let flags = PacketFlags(narrow(number(flags)?, 0xffff)? as u16);
            let other = PacketFlags(narrow(number(other)?, 0xffff)? as u16);
            Ok(format!("ok {}", u8::from(flags.contains(other))))
        }
        (b"rowset", [rows, values, bytes]) => {
            rowset_read(number(rows)?, number(values)?, read_bytes(bytes)?)
        }
        (b"rowset-write", [room, area, rows, values]) => {
            let room = number(room)?;
            rowset_write(&rows_of(area, rows, values)?, room)
        }
        (b"rowset-size", [area, rows, values]) => rowset_size(&rows_of(area, rows, values)?),
        (b"value", [at, bytes]) => value(number(at)?, &read_bytes(bytes)?),
        (b"plain", [bytes]) => {
            read_bytes(bytes)?;
            Err(Without::Skip)
        }
        // What only the exported functions have.
        (b"update", [register, bytes]) => {
            number(register)?;
            read_bytes(bytes)?;
            Err(Without::Skip)
        }
        // The Rust has one engine, and it begins at 0.
        (b"fold" | b"fold8", [register, stretches @ ..]) if !stretches.is_empty() => {
            match read_register(register)? {
                0 => crc(stretches),
                _ => {
                    for stretch in stretches {
                        read_bytes(stretch)?;
                    }
                    Err(Without::Skip)
                }
            }
        }
        (b"combine", [first, second, length]) => {
            read_register(first)?;
            read_register(second)?;
            number(length)?;
            Err(Without::Skip)
        }
        (b"pack", [room, area, values]) => {
            number(room)?;
            read_bytes(area)?;
            read_words(values)?;
            Err(Without::Skip)
        }
        (b"yson", [room, bytes]) => {
            number(room)?;
            read_bytes(bytes)?;
            Err(Without::Skip)
        }
        (b"error-read", [errors, attributes, bytes]) => {
            number(errors)?;
            number(attributes)?;
            read_bytes(bytes)?;
            Err(Without::Skip)
        }
        (b"error-write", [room, area, errors, attributes]) => {
            number(room)?;
            read_bytes(area)?;
            read_words(errors)?;
            read_words(attributes)?;
            Err(Without::Skip)
        }
        (b"error-size", [area, errors, attributes]) => {
            read_bytes(area)?;
            read_words(errors)?;
            read_words(attributes)?;
            Err(Without::Skip)
        }
        (b"text-read", [rows, values, room, bytes]) => {
            number(rows)?;
            number(values)?;
            number(room)?;
            read_bytes(bytes)?;
            Err(Without::Skip)
        }
        (b"text-write", [room, area, rows, values]) => {
            number(room)?;
            read_bytes(area)?;
            read_words(rows)?;
            read_words(values)?;
            Err(Without::Skip)
        }
        (b"text-size", [area, rows, values]) => {
            read_bytes(area)?;
            read_words(rows)?;
            read_words(values)?;
            Err(Without::Skip)
        }
        (b"guid-text" | b"guid-bytes", [id, room]) => {
            guid(id)?;
            number(room)?;
            Err(Without::Skip)
        }
        (b"typed-write", [kind, room, area, parts]) => {
            number(kind)?;
            number(room)?;
            read_bytes(area)?;
            read_words(parts)?;
            Err(Without::Skip)
        }
        (b"typed-size", [kind, area, parts]) => {
            number(kind)?;
            read_bytes(area)?;
            read_words(parts)?;
            Err(Without::Skip)
        }
        _ => Err(Without::BadCase),
    }
}

// The words of a case and of an answer.

/// A case's kind without the mode, and whether that is live.
fn mode_of(kind: &[u8]) -> (&[u8], bool) {
    match kind {
        b"packet-live" => (b"packet", true),
        b"packet-default-live" => (b"packet-default", true),
        b"packet-write-live" => (b"packet-write", true),
        b"packet-size-live" => (b"packet-size", true),
        b"validate-live" => (b"validate", true),
        kind => (kind, false),
    }
}

impl From<BadCase> for Without {
    fn from(BadCase: BadCase) -> Self {
        Without::BadCase
    }
}

fn guid(word: &[u8]) -> Result<Guid, BadCase> {
    Ok(Guid(read_id(word)?))
}

fn refused(number: u8, consumed: Option<usize>, values: &[u64]) -> String {
    let mut text = format!("refused {number}");
    let consumed = consumed.map(|count| count as u64);
    for value in consumed.iter().chain(values) {
        text.push_str(&format!(" {value}"));
    }
    text
}

// The checksum and GUIDs.

fn crc(stretches: &[&[u8]]) -> Outcome {
    let mut register = Crc64::new();
    for stretch in stretches {
        register.update(&read_bytes(stretch)?);
    }
    Ok(format!("ok {:016x}", register.finish()))
}

/// The Rust's refusal has neither place nor reason. A text that it takes although a field begins with a plus
/// is excepted: A5 refuses it.
fn guid_read(text: &[u8]) -> Outcome {
    let text = std::str::from_utf8(text).map_err(|_| Without::Skip)?;
    match text.parse::<Guid>() {
        Ok(_) if text.split('-').any(|field| field.starts_with('+')) => Err(Without::Excepted),
        Ok(guid) => Ok(format!("ok {}", hex_or_dash(&guid.0))),
        Err(_) => Ok(format!("{} ..", refused(16, None, &[]))),
    }
}

fn guid_parts(guid: Guid) -> Outcome {
    let [a, b, c, d] = guid.parts();
    let (first, second) = guid.halves();
    assert!(Guid::from_parts([a, b, c, d]) == guid && Guid::from_halves(first, second) == guid);
    let null = u8::from(guid.is_null());
    Ok(format!("ok {a} {b} {c} {d} {first} {second} {null}"))
}

// Packets.

fn packet_refusal(error: PacketError, consumed: Option<usize>) -> String {
    match error {
        PacketError::Signature(found) => refused(1, consumed, &[found.into()]),
        PacketError::UnknownType(found) => refused(2, consumed, &[found.into()]),
        PacketError::TooManyParts { count } => refused(3, consumed, &[count.into()]),
        PacketError::PartTooLarge { index, size } => {
            refused(4, consumed, &[index as u64, size.into()])
        }
        PacketError::FixedHeaderChecksum { expected, actual } => {
            refused(5, consumed, &[expected, actual])
        }
        PacketError::VariableHeaderChecksum { expected, actual } => {
            refused(6, consumed, &[expected, actual])
        }
        PacketError::PartChecksum {
            index,
            expected,
            actual,
        } => refused(7, consumed, &[index as u64, expected, actual]),
        PacketError::MessageTooLarge { size, limit } => refused(8, consumed, &[size, limit]),
    }
}

fn packet_read(live: bool, limit: u64, ceiling: Option<u32>, room: u64, bytes: &[u8]) -> Outcome {
    let mut input = BytesMut::from(Bytes::from(read_bytes(bytes)?));
    // The Rust has no live mode, in which type 2 is refused.
    if live && input.get(4..6) == Some(&[2, 0]) {
        return Err(Without::Skip);
    }
    let start = input.as_ptr() as usize;
    let length = input.len();
    let result = match ceiling {
        Some(ceiling) => packet::decode_with(&mut input, limit, ceiling),
        None => packet::decode(&mut input, limit),
    };
    let consumed = length - input.len();
    let packet = match result {
        Ok(Some(packet)) => packet,
        Ok(None) => {
            assert!(consumed == 0);
            return Ok("more".to_string());
        }
        Err(error) => return Ok(packet_refusal(error, Some(consumed))),
    };
    let count = packet.parts.len();
    if count as u64 > room {
        return Err(Without::Skip);
    }
    let sums = stored(&read_bytes(bytes)?, count);
    let mut text = format!(
        "ok {consumed} {} {} {} {count}",
        packet.packet_type as u16,
        packet.flags.0,
        hex_or_dash(&packet.id.0)
    );
    // An empty part has no address: it stands where the one before it ends. The Rust does not tell the
    // stored checksum words, so they are taken from the input, which has them behind the sizes.
    let mut place = 44 + 12 * count;
    for (part, sum) in packet.parts.iter().zip(sums) {
        match part {
            None => text.push_str(" null"),
            Some(bytes) => {
                if !bytes.is_empty() {
                    place = bytes.as_ptr() as usize - start;
                }
                text.push_str(&format!(" {place}+{}", bytes.len()));
                place += bytes.len();
            }
        }
        text.push_str(&format!(":{sum}"));
    }
    Ok(text)
}

/// The checksum words of the parts, as they are stored in a packet of so many that was read.
fn stored(input: &[u8], count: usize) -> Vec<u64> {
    let words = input.get(36 + 4 * count..).unwrap_or_default();
    let words = words.chunks_exact(8).take(count);
    words
        .map(|word| u64::from_le_bytes(word.try_into().expect("eight bytes")))
        .collect()
}

/// The packet that a case describes; `skip` where its table breaks a rule, and for type 2 in live mode.
fn packet_of(
    live: bool,
    kind: &[u8],
    flags: &[u8],
    id: &[u8],
    area: &[u8],
    parts: &[u8],
) -> Result<Packet, Without> {
    let packet_type = match number(kind)? {
        0 => PacketType::Message,
        1 => PacketType::Ack,
        2 => PacketType::SslAck,
        _ => return Err(Without::BadCase),
    };
    let flags = PacketFlags(narrow(number(flags)?, 0xffff)? as u16);
    let id = guid(id)?;
    let area = Bytes::from(read_bytes(area)?);
    let parts = parts_of(&area, parts)?;
    if live && packet_type == PacketType::SslAck {
        return Err(Without::Skip);
    }
    Ok(Packet {
        packet_type,
        flags,
        id,
        parts,
    })
}

/// The parts of a table, without its words in between: a table may have 2^28 entries and more.
fn parts_of(area: &Bytes, text: &[u8]) -> Result<Vec<Option<Bytes>>, Without> {
    if text == b"-" {
        return Ok(Vec::new());
    }
    if let Some(count) = zeros(text)? {
        return match count % PART {
            0 => Ok(vec![Some(stretch(area, 0, 0)?); count / PART]),
            _ => Err(Without::Skip),
        };
    }
    let mut words = text.split(|&byte| byte == b',').map(number);
    let mut parts = Vec::with_capacity((1 + commas(text)) / PART);
    let mut kept = true;
    while let Some(offset) = words.next() {
        let offset = offset?;
        let length = words.next().transpose()?;
        // The third word is the stored checksum, which a writer does not read.
        let sum = words.next().transpose()?;
        let part = match (length, sum) {
            (Some(length), Some(_)) => part_of(area, offset, length),
            _ => Err(Without::Skip),
        };
        // A word that is no number, further on, still makes the line no case.
        match part {
            Ok(part) => parts.push(part),
            Err(_) => kept = false,
        }
    }
    if kept { Ok(parts) } else { Err(Without::Skip) }
}

fn part_of(area: &Bytes, offset: u64, length: u64) -> Result<Option<Bytes>, Without> {
    if offset == 0 && length == NULL {
        return Ok(None);
    }
    Ok(Some(stretch(area, offset, length)?))
}

fn stretch(area: &Bytes, offset: u64, length: u64) -> Result<Bytes, Without> {
    match offset.checked_add(length) {
        Some(end) if end <= area.len() as u64 => Ok(area.slice(offset as usize..end as usize)),
        _ => Err(Without::Skip),
    }
}

fn packet_write(packet: &Packet, room: u64) -> Outcome {
    if let Err(error) = packet::validate(packet) {
        return Ok(packet_refusal(error, None));
    }
    let size = packet::encoded_size(packet);
    if size as u64 > room {
        return Err(Without::Skip);
    }
    let mut output = BytesMut::new();
    Ok(match packet::encode(packet, &mut output) {
        Ok(()) => {
            assert!(output.len() == size);
            format!("ok {size} {}", hex_or_dash(&output))
        }
        Err(error) => packet_refusal(error, None),
    })
}

fn part(index: u64, bytes: &[u8], parts: &[u8]) -> Outcome {
    let input = Bytes::from(read_bytes(bytes)?);
    let words = read_words(parts)?;
    let Some(entry) = words
        .chunks_exact(PART)
        .nth(index.min(usize::MAX as u64) as usize)
    else {
        return Err(Without::Skip);
    };
    let part = part_of(&input, entry[0], entry[1])?;
    let sum = packet::part_checksum(part.as_ref());
    Ok(format!(
        "ok {} {sum:016x}",
        hex_or_dash(&part.unwrap_or_default())
    ))
}

// Rowsets.

fn wire_refusal(error: WireError) -> String {
    match error {
        WireError::Truncated { offset, needed } => {
            refused(9, None, &[offset as u64, needed as u64])
        }
        WireError::TooManyRows { count } => refused(10, None, &[count]),
        WireError::TooManyValues { row, count } => refused(11, None, &[row as u64, count]),
        WireError::ValueTooLong { length } => refused(12, None, &[length.into()]),
        WireError::RowsetTooLarge { size } => refused(13, None, &[size as u64]),
        WireError::AllocationFailed { size } => panic!("no memory for {size} bytes"),
        WireError::UnknownValueType(code) => refused(14, None, &[code.into()]),
        WireError::TrailingBytes(count) => refused(15, None, &[count as u64]),
    }
}

/// The five words of a value's entry. `place` is where the value's header begins, for an empty blob
/// has no address and stands after its header; `start` is the address that offsets count from.
fn entry_of(value: &UnversionedValue, start: usize, place: usize) -> [u64; 5] {
    let (word, length) = match &value.value {
        Value::Null => (0, 0),
        Value::Int64(number) => (*number as u64, 0),
        Value::Uint64(number) => (*number, 0),
        Value::Double(number) => (number.to_bits(), 0),
        Value::Boolean(truth) => (u64::from(*truth), 0),
        Value::String(blob) | Value::Any(blob) | Value::Composite(blob) if blob.is_empty() => {
            (place as u64 + 8, 0)
        }
        Value::String(blob) | Value::Any(blob) | Value::Composite(blob) => {
            ((blob.as_ptr() as usize - start) as u64, blob.len() as u64)
        }
    };
    let kind = value.value.value_type() as u64;
    [value.id.into(), kind, value.aggregate.into(), word, length]
}

fn rowset_read(row_room: u64, value_room: u64, bytes: Vec<u8>) -> Outcome {
    let input = Bytes::from(bytes);
    let start = input.as_ptr() as usize;
    let rows = match wire::decode_rowset(&input) {
        Ok(rows) => rows,
        Err(error) => return Ok(wire_refusal(error)),
    };
    let mut row_words = Vec::new();
    let mut value_words = Vec::new();
    let mut place = 8;
    for row in &rows {
        place += 8;
        row_words.push(row.as_ref().map_or(NULL, |row| row.len() as u64));
        for value in row.iter().flatten() {
            value_words.extend(entry_of(value, start, place));
            place += value.wire_size();
        }
    }
    let (row_count, value_count) = (row_words.len(), value_words.len() / 5);
    if row_count as u64 > row_room || value_count as u64 > value_room {
        return Err(Without::Skip);
    }
    Ok(format!(
        "ok {row_count} {value_count} {} {}",
        words(&row_words),
        words(&value_words)
    ))
}

/// The rows that a case describes; `skip` where its tables break a rule.
fn rows_of(area: &[u8], rows: &[u8], values: &[u8]) -> Result<Vec<MaybeRow>, Without> {
    let area = Bytes::from(read_bytes(area)?);
    let row_words = read_words(rows)?;
    let value_words = read_words(values)?;
    if value_words.len() % 5 != 0 {
        return Err(Without::Skip);
    }
    let counts = row_words.iter().filter(|&&word| word != NULL);
    let total: u128 = counts.map(|&count| u128::from(count)).sum();
    if total != (value_words.len() / 5) as u128 {
        return Err(Without::Skip);
    }
    let mut entries = value_words
        .chunks_exact(5)
        .map(|entry| value_of(&area, entry));
    let mut table = Vec::with_capacity(row_words.len());
    for &word in &row_words {
        table.push(match word {
            NULL => None,
            count => Some(
                entries
                    .by_ref()
                    .take(count as usize)
                    .collect::<Result<_, _>>()?,
            ),
        });
    }
    Ok(table)
}

fn value_of(area: &Bytes, entry: &[u64]) -> Result<UnversionedValue, Without> {
    let &[id, kind, aggregate, word, length] = entry else {
        return Err(Without::Skip);
    };
    if id > 0xffff || aggregate > 1 || (kind < 16 && length != 0) {
        return Err(Without::Skip);
    }
    let value = match kind {
        2 if word == 0 => Value::Null,
        3 => Value::Int64(word as i64),
        4 => Value::Uint64(word),
        5 => Value::Double(f64::from_bits(word)),
        6 if word <= 1 => Value::Boolean(word == 1),
        16 => Value::String(stretch(area, word, length)?),
        17 => Value::Any(stretch(area, word, length)?),
        18 => Value::Composite(stretch(area, word, length)?),
        _ => return Err(Without::Skip),
    };
    Ok(UnversionedValue {
        id: id as u16,
        aggregate: aggregate == 1,
        value,
    })
}

fn rowset_write(rows: &[MaybeRow], room: u64) -> Outcome {
    match wire::encode_rowset(rows) {
        Ok(bytes) if bytes.len() as u64 > room => Err(Without::Skip),
        Ok(bytes) => Ok(format!("ok {} {}", bytes.len(), hex_or_dash(&bytes))),
        Err(error) => Ok(wire_refusal(error)),
    }
}

/// The Rust measures what its writer refuses, too; document 01 gives the writer's refusal there.
fn rowset_size(rows: &[MaybeRow]) -> Outcome {
    Ok(match wire::encode_rowset(rows) {
        Ok(_) => format!("ok {}", wire::encoded_size(rows)),
        Err(error) => wire_refusal(error),
    })
}

/// The Rust's reader of one value is private: the bytes from `at` on are read as the only value of a
/// rowset of one row, whose two count words are taken off every offset again.
fn value(at: u64, bytes: &[u8]) -> Outcome {
    const COUNTS: usize = 16;
    if at > bytes.len() as u64 {
        return Err(Without::Skip);
    }
    let at = at as usize;
    let mut framed = vec![1, 0, 0, 0, 0, 0, 0, 0, 1, 0, 0, 0, 0, 0, 0, 0];
    framed.extend_from_slice(&bytes[at..]);
    let mut input = Bytes::from(framed);
    let mut result = wire::decode_rowset(&input);
    if let Err(WireError::TrailingBytes(count)) = result {
        input.truncate(input.len() - count);
        result = wire::decode_rowset(&input);
    }
    let rows = match result {
        Ok(rows) => rows,
        Err(WireError::Truncated { offset, needed }) => {
            let offset = offset - COUNTS + at;
            return Ok(wire_refusal(WireError::Truncated { offset, needed }));
        }
        Err(error) => return Ok(wire_refusal(error)),
    };
    let value = &rows[0].as_ref().expect("one row")[0];
    let [id, kind, aggregate, mut word, length] = entry_of(value, input.as_ptr() as usize, COUNTS);
    if ValueType::is_string_like(value.value.value_type()) {
        word = word - COUNTS as u64 + at as u64;
    }
    let next = input.len() - COUNTS + at;
    Ok(format!("ok {id} {kind} {aggregate} {word} {length} {next}"))
}
