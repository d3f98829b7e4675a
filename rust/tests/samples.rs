//! The repository's samples: what is read of each is what its text says, in the lines of `list`.

use cablefinch::packet::Guard;
use cablefinch::{packet, wire};
use std::fmt::Write as _;

fn listing(input: &[u8]) -> String {
    let mut decoder = packet::Decoder::archive();
    let mut text = String::new();
    let mut offset = 0;
    loop {
        let rest = &input[offset..];
        if rest.is_empty() {
            let _ = writeln!(text, "end {offset}");
            return text;
        }
        match decoder.decode(rest, u64::MAX) {
            Ok(Some(decoded)) => {
                let packet = &decoded.packet;
                let (kind, flags) = (packet.packet_type as u16, packet.flags.0);
                let count = packet.parts.len();
                let _ = writeln!(text, "packet {offset} {kind} {flags} {} {count}", packet.id);
                for (index, part) in packet.parts.iter().enumerate() {
                    let _ = match (part, packet.parts.guard(index)) {
                        (None, _) => writeln!(text, "part {index} null"),
                        (Some(part), Some(Guard::Guarded(_))) => {
                            writeln!(text, "part {index} {} guarded", part.len())
                        }
                        (Some(part), _) => writeln!(text, "part {index} {} bare", part.len()),
                    };
                }
                offset += decoded.consumed;
            }
            Ok(None) => {
                let _ = writeln!(text, "more {offset}");
                return text;
            }
            Err(refusal) => {
                let _ = writeln!(text, "refused {offset} {}", refusal.code());
                return text;
            }
        }
    }
}

#[test]
fn samples_read_as_their_texts_say() {
    for (input, text) in [
        (
            &include_bytes!("../../samples/good.bin")[..],
            include_str!("../../samples/good.txt"),
        ),
        (
            include_bytes!("../../samples/damaged.bin"),
            include_str!("../../samples/damaged.txt"),
        ),
        (
            include_bytes!("../../samples/cut.bin"),
            include_str!("../../samples/cut.txt"),
        ),
        (
            include_bytes!("../../samples/terms.bin"),
            include_str!("../../samples/terms.txt"),
        ),
    ] {
        assert_eq!(listing(input), text);
    }
}

#[test]
fn the_parts_of_the_terms_are_plain_rowsets() {
    let input = include_bytes!("../../samples/terms.bin");
    let mut rowsets = wire::Decoder::new();
    let mut offset = 0;
    let mut nulls = Vec::new();
    while let Some(decoded) =
        packet::decode(packet::Mode::Archive, &input[offset..], 1 << 20).unwrap()
    {
        for part in &decoded.packet.parts {
            let Some(part) = part else { continue };
            assert!(wire::is_plain(part));
            let rowset = rowsets.decode_rowset(part).unwrap();
            nulls.push(rowset.rows().map(|row| row.is_none()).collect::<Vec<_>>());
            assert_eq!(rowset.encode().unwrap(), part);
        }
        offset += decoded.consumed;
    }
    assert_eq!(
        nulls,
        [
            vec![false, true, true, false, false, false],
            vec![],
            vec![true, false, true],
        ]
    );
}
