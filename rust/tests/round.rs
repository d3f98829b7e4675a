//! What is written is read back, over generated packets, rowsets and their texts; any bytes have an answer; and
//! a connection that is fed one byte at a time hears what was sent.

use cablefinch::packet::{self, Packet, PacketFlags, PacketType, Part};
use cablefinch::text::{self, TextError};
use cablefinch::wire::{self, UnversionedValue, Value};
use cablefinch::{Guid, checksum};

/// Numbers that are the same in each run.
struct Draw(u64);

impl Draw {
    fn word(&mut self) -> u64 {
        self.0 = self.0.wrapping_add(0x9e37_79b9_7f4a_7c15);
        let mixed = (self.0 ^ self.0 >> 30).wrapping_mul(0xbf58_476d_1ce4_e5b9);
        let mixed = (mixed ^ mixed >> 27).wrapping_mul(0x94d0_49bb_1331_11eb);
        mixed ^ mixed >> 31
    }

    fn below(&mut self, bound: u64) -> u64 {
        self.word() % bound
    }

    fn bytes(&mut self, most: u64) -> Vec<u8> {
        (0..self.below(most + 1))
            .map(|_| self.word() as u8)
            .collect()
    }
}

type OwnedPart = Option<Vec<u8>>;

fn parts(draw: &mut Draw) -> Vec<OwnedPart> {
    let most = [0, 1, 4, 40][draw.below(4) as usize];
    (0..draw.below(most + 1))
        .map(|_| match draw.below(4) {
            0 => None,
            1 => Some(Vec::new()),
            _ => Some(draw.bytes(60)),
        })
        .collect()
}

fn packet<'a>(draw: &mut Draw, parts: &'a [OwnedPart]) -> Packet<'a> {
    let types = [PacketType::Message, PacketType::Ack, PacketType::SslAck];
    let parts: Vec<Part<'a>> = parts.iter().map(Option::as_deref).collect();
    Packet {
        packet_type: types[draw.below(3) as usize],
        flags: PacketFlags(draw.word() as u16),
        id: Guid::from_halves(draw.word(), draw.word()),
        parts: parts.into(),
    }
}

#[test]
fn packets_come_back() {
    let mut draw = Draw(1);
    let mut decoder = packet::Decoder::archive();
    for _ in 0..2000 {
        let parts = parts(&mut draw);
        let sent = packet(&mut draw, &parts);
        let mut bytes = Vec::new();
        packet::encode(packet::Mode::Archive, &sent, &mut bytes).unwrap();
        let size = bytes.len();
        assert_eq!(packet::encoded_size(packet::Mode::Archive, &sent), Ok(size));
        let cut = draw.below(size as u64) as usize;
        assert_eq!(decoder.decode(&bytes[..cut], 1 << 20), Ok(None));
        bytes.extend(draw.bytes(50));
        let decoded = decoder.decode(&bytes, 1 << 20).unwrap().unwrap();
        assert_eq!((&decoded.packet, decoded.consumed), (&sent, size));
        let mut again = Vec::new();
        packet::encode(packet::Mode::Archive, &decoded.packet, &mut again).unwrap();
        assert_eq!(again, bytes[..size]);
    }
}

#[test]
fn rowsets_come_back() {
    let mut draw = Draw(2);
    let mut decoder = wire::Decoder::new();
    for _ in 0..2000 {
        let blobs: Vec<Vec<u8>> = (0..4).map(|_| draw.bytes(20)).collect();
        let most = [1, 5, 80][draw.below(3) as usize];
        let rows: Vec<Option<Vec<UnversionedValue<'_>>>> = (0..draw.below(most))
            .map(|_| match draw.below(4) {
                0 => None,
                1 => Some(Vec::new()),
                _ => Some(
                    (0..draw.below(6))
                        .map(|_| value(&mut draw, &blobs))
                        .collect(),
                ),
            })
            .collect();
        let bytes = wire::encode_rowset(&rows).unwrap();
        assert_eq!(wire::encoded_size(&rows), Ok(bytes.len()));
        assert!(wire::is_plain(&bytes));
        let rowset = decoder.decode_rowset(&bytes).unwrap();
        let read: Vec<Option<Vec<UnversionedValue<'_>>>> = rowset
            .rows()
            .map(|row| row.map(|row| row.values().collect()))
            .collect();
        assert_eq!(read, rows);
        assert_eq!(rowset.encode().unwrap(), bytes);
        texts_come_back(&mut draw, &rowset, &bytes);
    }
}

/// A rowset's text gives the rowset again. Changed in a byte, it is the text of another, which is written as
/// that text, or it is refused at or behind that byte; so is every beginning that ends inside a line, at its end.
fn texts_come_back(draw: &mut Draw, rowset: &wire::Rowset<'_>, bytes: &[u8]) {
    let mut text = rowset.write_text().unwrap();
    assert_eq!(rowset.text_size(), Ok(text.len()));
    let read = text::read_text(&text).unwrap();
    assert_eq!(&read.rowset(), rowset);
    assert_eq!(read.rowset().encode().unwrap(), bytes);
    assert_eq!(read.rowset().write_text().unwrap(), text);
    if text.is_empty() {
        return;
    }
    let cut = draw.below(text.len() as u64) as usize;
    let front = &text[..cut];
    match text::read_text(front) {
        Ok(read) => assert_eq!(read.rowset().write_text().unwrap(), front),
        Err(error) => assert_eq!((error.code(), error.place()), (19, Some(cut))),
    }
    let likely = b"\t\n#:!%0129afAFnidubsac \r~\x7f";
    text[cut] = likely[draw.below(likely.len() as u64) as usize];
    match text::read_text(&text) {
        Ok(read) => assert_eq!(read.rowset().write_text().unwrap(), text),
        Err(TextError::Limit(limit)) => panic!("{limit}"),
        Err(error) => {
            let place = error.place().unwrap();
            assert!(cut <= place && place <= text.len());
        }
    }
}

fn value<'a>(draw: &mut Draw, blobs: &'a [Vec<u8>]) -> UnversionedValue<'a> {
    let blob = &blobs[draw.below(blobs.len() as u64) as usize];
    UnversionedValue {
        id: draw.word() as u16,
        aggregate: draw.below(2) == 1,
        value: match draw.below(8) {
            0 => Value::Null,
            1 => Value::Int64(draw.word() as i64),
            2 => Value::Uint64(draw.word()),
            3 => Value::Double(draw.below(1 << 50) as f64 / 64.0),
            4 => Value::Boolean(draw.below(2) == 1),
            5 => Value::String(blob),
            6 => Value::Any(blob),
            _ => Value::Composite(blob),
        },
    }
}

#[test]
fn any_bytes_have_an_answer() {
    let mut draw = Draw(3);
    let mut decoder = packet::Decoder::archive();
    for _ in 0..20_000 {
        let mut bytes = draw.bytes(120);
        if draw.below(2) == 0 {
            // A packet or a rowset with some bytes changed.
            let parts = parts(&mut draw);
            bytes.clear();
            packet::encode(
                packet::Mode::Archive,
                &packet(&mut draw, &parts),
                &mut bytes,
            )
            .unwrap();
            if draw.below(2) == 0 {
                let value = [UnversionedValue::new(0, Value::String(&bytes))];
                bytes = wire::encode_rowset(&[None, Some(value)]).unwrap();
            } else {
                // Checksum words of 0 are not verified, so that the sizes are looked at.
                bytes[28..36].fill(0);
            }
            for _ in 0..draw.below(4) {
                let at = draw.below(bytes.len() as u64) as usize;
                bytes[at] = draw.word() as u8;
            }
        }
        match decoder.decode_with(&bytes, draw.below(400), draw.below(40) as u32) {
            Ok(Some(decoded)) => {
                assert!(decoded.consumed <= bytes.len());
                for part in &decoded.packet.parts {
                    checksum(part.unwrap_or_default());
                }
            }
            Ok(None) => {}
            Err(refusal) => {
                assert!((1..=8).contains(&refusal.code()));
                assert!(refusal.consumed <= bytes.len());
                assert!(refusal.code() == 7 || refusal.consumed == 0);
                assert!(!refusal.to_string().is_empty());
            }
        }
        match wire::decode_rowset(&bytes) {
            Ok(rowset) => assert!(rowset.rows().count() == rowset.len()),
            Err(error) => {
                assert!((9..=15).contains(&error.code()));
                assert!(!error.to_string().is_empty());
            }
        }
        wire::is_plain(&bytes);
        let _ = Guid::from_text(&bytes);
    }
}

#[test]
fn one_byte_at_a_time() {
    let mut draw = Draw(4);
    let all: Vec<Vec<OwnedPart>> = (0..60).map(|_| parts(&mut draw)).collect();
    let sent: Vec<Packet<'_>> = all.iter().map(|parts| packet(&mut draw, parts)).collect();
    let mut stream = Vec::new();
    for packet in &sent {
        packet::encode(packet::Mode::Archive, packet, &mut stream).unwrap();
    }

    let mut decoder = packet::Decoder::archive();
    let mut buffer = Vec::new();
    let mut heard = 0;
    for byte in stream {
        buffer.push(byte);
        let consumed = match decoder.decode(&buffer, 1 << 16).unwrap() {
            None => continue,
            Some(decoded) => {
                assert_eq!(decoded.packet, sent[heard]);
                decoded.consumed
            }
        };
        buffer.drain(..consumed);
        heard += 1;
    }
    assert_eq!((heard, buffer.len()), (sent.len(), 0));
}
