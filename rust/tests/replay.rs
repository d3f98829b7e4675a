//! The stored sample of `replay`, whose answers were held against the original's: every case that
//! this crate can be asked is asked, and its answer is compared. So it is with a run of many more,
//! where CABLEFINCH_CASES names the folder in which `compare/run --keep` left its cases and the
//! original's answers.
//!
//! Left aside are cases of what the crate keeps to itself: tables that are too short (17, where the
//! crate's own grow) or broken (18, where the crate's own are not), lone entries (`part`) and lone
//! values (`value`); and lines that are no case, or to which the original has no answer, or one that is
//! excepted. Of some answers the original has only the beginning, `refused 16 ..`.

use cablefinch::packet::{self, Guard, Mode, Packet, PacketError, PacketFlags, PacketType, Part};
use cablefinch::wire::{self, Rowset, UnversionedValue, Value, WireError};
use cablefinch::{Crc64, Guid, checksum};
use std::collections::BTreeMap;
use std::fmt::Write as _;
use std::path::PathBuf;

const CASES: &str = include_str!("../../crates/replay/stdin");
const ANSWERS: &str = include_str!("../../crates/replay/stdout");
const NULL: u64 = u64::MAX;
/// The words of a part and of a value in the tables of a case.
const PART: usize = 3;
const VALUE: usize = 5;

#[test]
fn the_stored_sample() {
    let (cases, answers) = sample();
    assert_eq!(cases.lines().count(), answers.lines().count());
    let mut answered = BTreeMap::new();
    let mut aside = BTreeMap::new();
    for (case, expected) in cases.lines().zip(answers.lines()) {
        let kind = case.split(' ').next().unwrap_or_default();
        if matches!(expected, "skip" | "excepted" | "bad case") || enormous(case) {
            *aside.entry(kind).or_insert(0) += 1;
            continue;
        }
        match answer(case, expected) {
            Some(text) => {
                match expected.strip_suffix("..") {
                    Some(beginning) => assert!(text.starts_with(beginning), "{case}: {text}"),
                    None => assert_eq!(text, expected, "{case}"),
                }
                *answered.entry(kind).or_insert(0) += 1;
            }
            None => {
                let lone = matches!(kind, "part" | "value");
                let table =
                    expected.starts_with("refused 17") || expected.starts_with("refused 18");
                assert!(lone || table, "{case}");
                *aside.entry(kind).or_insert(0) += 1;
            }
        }
    }
    println!("answered {answered:?}\nleft aside {aside:?}");
    let answered: usize = answered.values().sum();
    let aside: usize = aside.values().sum();
    assert!(
        answered >= 600,
        "{answered} were answered, {aside} left aside"
    );
}

/// The cases, and the original's answers.
fn sample() -> (String, String) {
    let Some(folder) = std::env::var_os("CABLEFINCH_CASES").map(PathBuf::from) else {
        return (CASES.to_string(), ANSWERS.to_string());
    };
    // A line that is no case may be any bytes.
    let read = |name: &str| std::fs::read(folder.join(name)).expect("a folder of compare/run");
    ["cases", "rust"]
        .map(|name| String::from_utf8_lossy(&read(name)).into_owned())
        .into()
}

/// A part table in its short form, of zeros alone: 2^28 parts and one more, which are gigabytes.
fn enormous(case: &str) -> bool {
    let table = case.rsplit(' ').next().unwrap_or_default();
    case.starts_with("packet-write ") && table.starts_with('z')
}

/// The mode that a case is in, by the end of its kind, and its words without that.
fn mode_and_words(case: &str) -> (Mode, Vec<&str>) {
    let mut words: Vec<&str> = case.split(' ').collect();
    let mut mode = Mode::Archive;
    if let Some(kind) = words[0].strip_suffix("-live") {
        words[0] = kind;
        mode = Mode::Live;
    }
    (mode, words)
}

/// The crate's answer, or none where the case is left aside.
fn answer(case: &str, expected: &str) -> Option<String> {
    let (mode, words) = mode_and_words(case);
    Some(match words[..] {
        ["crc", ref stretches @ ..] => {
            let sum = stretches
                .iter()
                .fold(Crc64::new(), |sum, word| sum.chain(&bytes(word)));
            format!("ok {:016x}", sum.finish())
        }
        ["checksum", word] => format!("ok {:016x}", checksum(&bytes(word))),
        ["guid-print", word] => format!("ok {}", id(word)),
        ["guid-read", word] => match Guid::from_text(&bytes(word)) {
            Ok(id) => format!("ok {}", hex(&id.0)),
            Err(error) => {
                let values = [error.position() as u64, error.reason().number().into()];
                refused(error.code(), values)
            }
        },
        ["guid-parts", word] => {
            let id = id(word);
            let ([a, b, c, d], (first, second)) = (id.parts(), id.halves());
            let null = u8::from(id.is_null());
            format!("ok {a} {b} {c} {d} {first} {second} {null}")
        }
        ["contains", flags, other] => {
            let flags = PacketFlags(number(flags) as u16);
            let holds = flags.contains(PacketFlags(number(other) as u16));
            format!("ok {}", u8::from(holds))
        }
        ["packet", limit, ceiling, _, input] => {
            let input = bytes(input);
            let ceiling = number(ceiling) as u32;
            let read = packet::decode_with(mode, &input, number(limit), ceiling);
            return packet_read(read, &input, expected);
        }
        ["packet-default", limit, _, input] => {
            let input = bytes(input);
            let read = packet::decode(mode, &input, number(limit));
            return packet_read(read, &input, expected);
        }
        ["packet-write", kind, flags, id, _, area, table] => {
            let area = bytes(area);
            let packet = made_packet(kind, flags, id, &area, table)?;
            let mut out = Vec::new();
            match packet::encode(mode, &packet, &mut out) {
                Ok(()) if short(expected, out.len()) => return None,
                Ok(()) => format!("ok {} {}", out.len(), hex(&out)),
                Err(error) => refused_packet(&error, None),
            }
        }
        ["packet-size", kind, flags, id, area, table] => {
            let area = bytes(area);
            match packet::encoded_size(mode, &made_packet(kind, flags, id, &area, table)?) {
                Ok(size) => format!("ok {size}"),
                Err(error) => refused_packet(&error, None),
            }
        }
        ["validate", kind, flags, id, area, table] => {
            let area = bytes(area);
            match packet::validate(mode, &made_packet(kind, flags, id, &area, table)?) {
                Ok(()) => "ok".to_string(),
                Err(error) => refused_packet(&error, None),
            }
        }
        ["rowset", _, _, input] => {
            let input = bytes(input);
            match wire::decode_rowset(&input) {
                Ok(rowset) if expected.starts_with("refused 17 ") => {
                    // Which table, and how many entries it needs.
                    let told: Vec<u64> = expected.split(' ').skip(2).map(number).collect();
                    let values: usize = rowset
                        .rows()
                        .map(|row| row.map_or(0, |row| row.len()))
                        .sum();
                    let needed = if told[0] == 2 { rowset.len() } else { values };
                    assert_eq!(told[1], needed as u64, "{case}");
                    return None;
                }
                Ok(rowset) => tables(&rowset, &input),
                Err(error) => refused_rowset(&error),
            }
        }
        ["rowset-write", _, area, rows, values] => {
            let area = bytes(area);
            match wire::encode_rowset(&made_rows(&area, rows, values)?) {
                Ok(out) if short(expected, out.len()) => return None,
                Ok(out) => format!("ok {} {}", out.len(), hex(&out)),
                Err(error) => refused_rowset(&error),
            }
        }
        ["rowset-size", area, rows, values] => {
            let area = bytes(area);
            match wire::encoded_size(&made_rows(&area, rows, values)?) {
                Ok(size) => format!("ok {size}"),
                Err(error) => refused_rowset(&error),
            }
        }
        ["plain", input] => format!("ok {}", u8::from(wire::is_plain(&bytes(input)))),
        _ => return None,
    })
}

// The words of a case.

fn number(word: &str) -> u64 {
    word.parse().unwrap()
}

fn bytes(word: &str) -> Vec<u8> {
    match word {
        "-" => Vec::new(),
        word if word.contains('+') => word.split('+').flat_map(piece).collect(),
        word => piece(word),
    }
}

/// Hex digits, or so many zeros.
fn piece(word: &str) -> Vec<u8> {
    if let Some(count) = word.strip_prefix('z') {
        return vec![0; number(count) as usize];
    }
    (0..word.len())
        .step_by(2)
        .map(|at| u8::from_str_radix(&word[at..at + 2], 16).unwrap())
        .collect()
}

fn id(word: &str) -> Guid {
    Guid(bytes(word).try_into().unwrap())
}

fn list(word: &str) -> Vec<u64> {
    match word {
        "-" => Vec::new(),
        word => word.split(',').map(number).collect(),
    }
}

fn stretch(area: &[u8], offset: u64, length: u64) -> Option<&[u8]> {
    area.get(offset as usize..(offset as usize).checked_add(length as usize)?)
}

/// The packet that a table over an area stands for; none where the table breaks a rule.
fn made_packet<'a>(
    kind: &str,
    flags: &str,
    name: &str,
    area: &'a [u8],
    table: &str,
) -> Option<Packet<'a>> {
    let table = list(table);
    if !table.len().is_multiple_of(PART) {
        return None;
    }
    let parts: Option<Vec<Part<'a>>> = table
        .chunks(PART)
        .map(|entry| match entry {
            [0, NULL, _] => Some(None),
            entry => stretch(area, entry[0], entry[1]).map(Some),
        })
        .collect();
    Some(Packet {
        packet_type: match number(kind) {
            0 => PacketType::Message,
            1 => PacketType::Ack,
            2 => PacketType::SslAck,
            _ => return None,
        },
        flags: PacketFlags(number(flags) as u16),
        id: id(name),
        parts: parts?.into(),
    })
}

type Rows<'a> = Vec<Option<Vec<UnversionedValue<'a>>>>;

/// The rows that tables over an area stand for; none where the tables break a rule.
fn made_rows<'a>(area: &'a [u8], rows: &str, values: &str) -> Option<Rows<'a>> {
    let (rows, values) = (list(rows), list(values));
    if !values.len().is_multiple_of(VALUE) {
        return None;
    }
    let mut values = values
        .chunks(VALUE)
        .map(|words| made_value(area, words))
        .collect::<Option<Vec<_>>>()?
        .into_iter();
    let mut made = Vec::new();
    for row in rows {
        if row == NULL {
            made.push(None);
        } else if row > values.len() as u64 {
            return None;
        } else {
            made.push(Some(values.by_ref().take(row as usize).collect()));
        }
    }
    (values.len() == 0).then_some(made)
}

fn made_value<'a>(area: &'a [u8], words: &[u64]) -> Option<UnversionedValue<'a>> {
    let &[id, kind, aggregate, word, length] = words else {
        return None;
    };
    let value = match kind {
        2 if word == 0 => Value::Null,
        3 => Value::Int64(word as i64),
        4 => Value::Uint64(word),
        5 => Value::Double(f64::from_bits(word)),
        6 if word <= 1 => Value::Boolean(word == 1),
        16 => Value::String(stretch(area, word, length)?),
        17 => Value::Any(stretch(area, word, length)?),
        18 => Value::Composite(stretch(area, word, length)?),
        _ => return None,
    };
    if aggregate > 1 || kind < 16 && length != 0 {
        return None;
    }
    Some(UnversionedValue {
        id: id.try_into().ok()?,
        aggregate: aggregate == 1,
        value,
    })
}

// The words of an answer.

fn hex(bytes: &[u8]) -> String {
    if bytes.is_empty() {
        return "-".to_string();
    }
    bytes.iter().fold(String::new(), |mut text, byte| {
        let _ = write!(text, "{byte:02x}");
        text
    })
}

fn commas(words: &[u64]) -> String {
    if words.is_empty() {
        return "-".to_string();
    }
    let words: Vec<String> = words.iter().map(u64::to_string).collect();
    words.join(",")
}

/// Whether the stored case had too little room for an output, which needed `size` bytes.
fn short(expected: &str, size: usize) -> bool {
    let Some(told) = expected.strip_prefix("refused 17 4 ") else {
        return false;
    };
    assert_eq!(told.split(' ').next().map(number), Some(size as u64));
    true
}

/// Where a stretch of the input begins.
fn offset(input: &[u8], part: &[u8]) -> usize {
    part.as_ptr() as usize - input.as_ptr() as usize
}

fn packet_read(
    read: Result<Option<packet::Decoded<'_>>, packet::Refusal>,
    input: &[u8],
    expected: &str,
) -> Option<String> {
    let decoded = match read {
        Err(refusal) => return Some(refused_packet(&refusal.error, Some(refusal.consumed))),
        Ok(None) => return Some("more".to_string()),
        Ok(Some(decoded)) => decoded,
    };
    let packet = &decoded.packet;
    if let Some(told) = expected.strip_prefix("refused 17 0 1 ") {
        let needed = told.split(' ').next().map(number);
        assert_eq!(needed, Some(packet.parts.len() as u64));
        return None;
    }
    let mut text = format!(
        "ok {} {} {} {} {}",
        decoded.consumed,
        packet.packet_type as u16,
        packet.flags.0,
        hex(&packet.id.0),
        packet.parts.len()
    );
    for (index, part) in packet.parts.iter().enumerate() {
        let at = 36 + 4 * packet.parts.len() + 8 * index;
        let word = u64::from_le_bytes(input[at..at + 8].try_into().unwrap());
        let guard = match (part, word) {
            (None, _) => None,
            (Some(_), 0) => Some(Guard::Bare),
            (Some(_), word) => Some(Guard::Guarded(word)),
        };
        assert_eq!(packet.parts.guard(index), guard);
        let _ = match part {
            None => write!(text, " null:{word}"),
            Some(part) => write!(text, " {}+{}:{word}", offset(input, part), part.len()),
        };
    }
    Some(text)
}

fn refused_packet(error: &PacketError, consumed: Option<usize>) -> String {
    let values = match *error {
        PacketError::Signature(word) => vec![word.into()],
        PacketError::UnknownType(found) => vec![found.into()],
        PacketError::TooManyParts { count } => vec![count.into()],
        PacketError::PartTooLarge { index, size } => vec![index as u64, size.into()],
        PacketError::FixedHeaderChecksum { expected, actual }
        | PacketError::VariableHeaderChecksum { expected, actual } => vec![expected, actual],
        PacketError::PartChecksum {
            index,
            expected,
            actual,
        } => vec![index as u64, expected, actual],
        PacketError::MessageTooLarge { size, limit } => vec![size, limit],
        PacketError::RetiredType(found) => vec![found.into()],
        other => panic!("{other}"),
    };
    let consumed = consumed.map(|bytes| bytes as u64);
    refused(error.code(), consumed.into_iter().chain(values))
}

fn refused_rowset(error: &WireError) -> String {
    let values = match *error {
        WireError::Truncated { offset, needed } => vec![offset as u64, needed as u64],
        WireError::TooManyRows { count } => vec![count],
        WireError::TooManyValues { row, count } => vec![row as u64, count],
        WireError::ValueTooLong { length } => vec![length.into()],
        WireError::RowsetTooLarge { size } => vec![size as u64],
        WireError::UnknownValueType(code) => vec![code.into()],
        WireError::TrailingBytes(bytes) => vec![bytes as u64],
        other => panic!("{other}"),
    };
    refused(error.code(), values)
}

fn refused(code: u32, values: impl IntoIterator<Item = u64>) -> String {
    values
        .into_iter()
        .fold(format!("refused {code}"), |text, value| {
            format!("{text} {value}")
        })
}

/// The tables that a rowset's rows and values stand for.
fn tables(rowset: &Rowset<'_>, input: &[u8]) -> String {
    let (mut rows, mut values) = (Vec::new(), Vec::new());
    for row in rowset.rows() {
        rows.push(row.map_or(NULL, |row| row.len() as u64));
        for value in row.iter().flat_map(|row| row.values()) {
            let (word, length) = match value.value {
                Value::Null => (0, 0),
                Value::Int64(number) => (number as u64, 0),
                Value::Uint64(number) => (number, 0),
                Value::Double(number) => (number.to_bits(), 0),
                Value::Boolean(truth) => (truth.into(), 0),
                Value::String(blob) | Value::Any(blob) | Value::Composite(blob) => {
                    (offset(input, blob) as u64, blob.len() as u64)
                }
            };
            let kind = value.value.value_type() as u64;
            values.extend([value.id.into(), kind, value.aggregate.into(), word, length]);
        }
    }
    let counts = format!("ok {} {}", rows.len(), values.len() / 5);
    format!("{counts} {} {}", commas(&rows), commas(&values))
}
