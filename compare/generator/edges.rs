//! The fixed cases: the documents' examples (`examples`), the limits on both sides, every cut of a few
//! inputs and every flipped bit of some. `huge` are those that cost gigabytes or minutes; no run
//! makes them unasked.

use std::io::{self, Write};

use crate::packets::{NULL_SIZE, PART, SIGNATURE, Wire, id_of, part_table};
use crate::rowsets::{NULL, crossing_with};
use crate::terms;
use crate::text::{hex, hex_or_dash, words};

pub const ID: &str = "01000000020000000300000004000000";
pub const NO_ID: &str = "00000000000000000000000000000000";

/// Document 01's examples, the vectors of the judge's self test, and document 02's examples of GUID texts that
/// are refused (A5).
pub fn examples() -> Vec<String> {
    let mut lines = Vec::new();
    for bytes in [
        "-",
        "00",
        "01",
        "02",
        "03",
        "80",
        "ff",
        "01e543279765927881",
    ] {
        lines.push(format!("checksum {bytes}"));
    }
    for bytes in [
        hex(&[&[1], [0; 8].as_slice()].concat()),
        hex(&[[0; 8].as_slice(), &[1]].concat()),
        hex(b"123456789"),
        hex(b"cablefinch"),
        hex(b"The quick brown fox jumps over the lazy dog"),
        hex(&[0xff; 64]),
        hex(&(0..=255).collect::<Vec<u8>>()),
        hex(&(0..=255).rev().collect::<Vec<u8>>()),
        hex(&(0..1000u64)
            .map(|at| (at * at % 251) as u8)
            .collect::<Vec<u8>>()),
    ] {
        lines.push(format!("checksum {bytes}"));
    }
    lines.push(format!("guid-print {ID}"));
    for text in [
        "4-3-2-1",
        "+1-2-3-4",
        "0-0-0",
        "",
        "-",
        "1",
        "1-",
        "g",
        "1g-",
        "1-+2-3-4",
        "1--2",
        "1-2-3-",
        "1-2-3-4-",
        "1-2-3-4\n",
        "1-2-3-123456789",
        "12345678",
        "123456789",
        "12345678g",
        "12345678+",
        "12345678-",
        "1-2-3-12345678-",
        "1-2-3--",
        "1-2-",
        "1-2-3-4-5",
        "1-2-3-4--",
    ] {
        lines.push(format!("guid-read {}", hex_or_dash(text.as_bytes())));
    }
    lines.push(String::from("rowset 9 9 -"));
    lines.push(format!(
        "rowset 9 9 {}",
        hex(&rowset(&[&word(1), &word(NULL)]))
    ));
    lines.push(format!(
        "rowset 9 9 {}",
        hex(&rowset(&[&word(1), &word(0)]))
    ));
    // A five-byte string whose padding is missing.
    let short = rowset(&[&word(1), &word(1), &header(0, 16, 0, 5), b"hello"]);
    lines.push(format!("rowset 9 9 {}", hex(&short)));

    let id = id_of([1, 2, 3, 4]);
    let ack = Wire::new(1, 0, id, &[]).bytes(|_| 0);
    let message = Wire::new(0, 0, id, &[]).bytes(|_| 0);
    lines.push(format!("packet 0 65536 0 {}", hex(&ack)));
    lines.push(format!("packet 0 65536 0 {}", hex(&ack[..35])));
    lines.push(format!("packet 43 65536 0 {}", hex(&message)));
    lines.push(format!("packet 44 65536 0 {}", hex(&message)));
    // Sizes null, 0 and 1: 81 bytes.
    let three = Wire::new(0, 0, id, &[None, Some(vec![]), Some(vec![7])]).bytes(|sum| sum);
    lines.push(format!("packet 81 65536 3 {}", hex(&three)));
    lines.push(format!("packet 80 65536 3 {}", hex(&three)));
    lines.push(format!(
        "packet-write 0 0 {ID} 81 07 {}",
        words(&part_table(&[0, NULL, 0, 0, 0, 1]))
    ));
    lines
}

pub fn list() -> Vec<String> {
    let mut lines = examples();
    checksums(&mut lines);
    guids(&mut lines);
    packets(&mut lines);
    packet_tables(&mut lines);
    rowsets(&mut lines);
    rowset_tables(&mut lines);
    terms::edges(&mut lines);
    lines
}

fn add(lines: &mut Vec<String>, list: &[&str]) {
    lines.extend(list.iter().map(|line| line.to_string()));
}

fn checksums(lines: &mut Vec<String>) {
    add(
        lines,
        &[
            "checksum 00000001e543279765927881",
            "checksum 01e54327976592788100",
            "checksum 0000000000000001",
            "checksum 0100000000000000",
            "checksum z0",
            "checksum z1",
            "checksum z64",
            "crc -",
            "crc - - -",
            "crc 01 - e543279765 - 927881",
            "crc 01e543279765927881 01",
            "crc z3 01 z5",
            "crc 01 z1000000",
            "checksum z1073741824",
            "contains 0 0",
            "contains 0 1",
            "contains 1 1",
            "contains 3 1",
            "contains 1 3",
            "contains 65535 32768",
            "contains 32767 32768",
        ],
    );
    for byte in 0..=255u8 {
        lines.push(format!("checksum {byte:02x}"));
    }
}

fn guids(lines: &mut Vec<String>) {
    for id in [
        ID,
        NO_ID,
        "ffffffffffffffffffffffffffffffff",
        "00000000000000000000000001000000",
        "01000000000000000000000000000000",
        "0000000f000000f000000f000000f000",
        "10000000000100000010000000000100",
        "00001000000000010000001000000080",
    ] {
        lines.push(format!("guid-print {id}"));
        lines.push(format!("guid-parts {id}"));
    }
    for bit in 0..128 {
        let mut id = [0u8; 16];
        id[bit / 8] = 1 << (bit % 8);
        lines.push(format!("guid-print {}", hex(&id)));
        lines.push(format!("guid-parts {}", hex(&id)));
    }
    for text in [
        "0-0-0-0",
        "0-0-0-0-0",
        "0-0-0-0-",
        "-0-0-0-0",
        "0--0-0",
        "",
        "-",
        "---",
        "----",
        "+-0-0-0",
        "0-+-0-0",
        "0-0-+-0",
        "0-0-0-+",
        "++1-0-0-0",
        "1+-0-0-0",
        "0-0-0-+f",
        "+1234567-+89abcde-+f-+0",
        "+12345678-0-0-0",
        "12345678-9abcdef0-ABCDEF01-FFFFFFFF",
        "123456789-0-0-0",
        "0-0-0-000000000",
        "00000000-00000001-0000000a-0000000F",
        "g-0-0-0",
        "0-0-0-G",
        "0x1-0-0-0",
        " 1-0-0-0",
        "1-0-0-0 ",
        "1-0-0-0\n",
        "1_-0-0-0",
        "1/-0-0-0",
        "1:-0-0-0",
        "1@-0-0-0",
        "1`-0-0-0",
        "٣-0-0-0",
        "é-0-0-0",
        "0-0-0-\u{ff11}",
    ] {
        lines.push(format!("guid-read {}", hex_or_dash(text.as_bytes())));
    }
    for byte in 0..=255u8 {
        lines.push(format!("guid-read 302d302d302d{byte:02x}"));
        lines.push(format!("guid-read {byte:02x}312d302d302d30"));
        lines.push(format!("guid-read 302d3132333435363738{byte:02x}"));
    }
    for text in places() {
        lines.push(format!("guid-read {}", hex_or_dash(&text)));
    }
}

/// Texts around each place where a GUID's text can go wrong: all short ones of a few pieces, and whole ones
/// cut, or with one byte taken out, put in or put for another.
fn places() -> Vec<Vec<u8>> {
    let pieces: [&[u8]; 5] = [b"1", b"12345678", b"-", b"+", b"g"];
    let mut texts = Vec::new();
    let mut last = vec![Vec::new()];
    for _ in 0..4 {
        last = last
            .iter()
            .flat_map(|text: &Vec<u8>| pieces.map(|piece| [text, piece].concat()))
            .collect();
        texts.extend_from_slice(&last);
    }
    let wholes: [&[u8]; 2] = [b"1-2-3-4", b"12345678-9abcdef0-ABCDEF01-23456789"];
    for whole in wholes {
        for at in 0..=whole.len() {
            let (before, rest) = whole.split_at(at);
            texts.push(before.to_vec());
            for byte in b"-0g+ \n\0\x80" {
                texts.push([before, &[*byte], rest].concat());
                texts.push([before, &[*byte], rest.get(1..).unwrap_or_default()].concat());
            }
            texts.push([before, rest.get(1..).unwrap_or_default()].concat());
        }
    }
    texts
}

/// The packets of document 01's examples and some around them, sealed.
fn samples() -> Vec<Vec<u8>> {
    let id = id_of([1, 2, 3, 4]);
    let full = vec![0x01, 0xe5, 0x43, 0x27, 0x97, 0x65, 0x92, 0x78, 0x81];
    let tables: [(u16, u16, Vec<Option<Vec<u8>>>); 9] = [
        (1, 0, vec![]),
        (2, 0xffff, vec![]),
        (0, 1, vec![]),
        (0, 0, vec![None, Some(vec![]), Some(vec![7])]),
        (1, 0, vec![Some(b"abc".to_vec())]),
        (2, 2, vec![None]),
        (0, 0, vec![Some(full), Some(vec![0, 0])]),
        (
            0,
            0,
            vec![
                Some(b"first".to_vec()),
                None,
                Some(b"second".to_vec()),
                Some(vec![]),
                None,
            ],
        ),
        (0, 0, vec![None, None, Some(vec![]), Some(vec![])]),
    ];
    let wires = tables
        .iter()
        .map(|(kind, flags, parts)| Wire::new(*kind, *flags, id, parts));
    wires.map(|wire| wire.bytes(|sum| sum)).collect()
}

fn packets(lines: &mut Vec<String>) {
    for bytes in samples() {
        let whole = bytes.len();
        for keep in 0..whole {
            lines.push(format!(
                "packet 1000 65536 9 {}",
                hex_or_dash(&bytes[..keep])
            ));
        }
        for limit in [0, 35, 36, 43, 44, 45, whole - 1, whole, whole + 1] {
            lines.push(format!("packet {limit} 65536 9 {}", hex(&bytes)));
            lines.push(format!("packet {limit} 65536 9 {}00ff", hex(&bytes)));
        }
        for room in 0..6 {
            lines.push(format!("packet 1000 65536 {room} {}", hex(&bytes)));
            lines.push(format!("packet 1000 {room} 9 {}", hex(&bytes)));
            lines.push(format!("packet-default 1000 {room} {}", hex(&bytes)));
        }
    }
    // Document 01's packet with sizes null, 0 and 1: every bit of it, turned over.
    let three = &samples()[3];
    for bit in 0..8 * three.len() {
        let mut bytes = three.clone();
        bytes[bit / 8] ^= 1 << (bit % 8);
        lines.push(format!("packet 1000 65536 9 {}", hex(&bytes)));
    }
    let mut unguarded = three.clone();
    unguarded[28..36].fill(0);
    let at = unguarded.len() - 9;
    unguarded[at..at + 8].fill(0);
    for bit in 0..8 * unguarded.len() {
        let mut bytes = unguarded.clone();
        bytes[bit / 8] ^= 1 << (bit % 8);
        lines.push(format!("packet 1000 4294967295 9 {}", hex(&bytes)));
    }
    fields(lines);
    many_parts(lines);
    add(
        lines,
        &[
            "packet 18446744073709551615 4294967295 0 z1073741824",
            "packet 100 100 0 z35",
            "packet 100 100 0 z36",
        ],
    );
}

/// Each field at its limits, the checksums sealed over what stands there.
fn fields(lines: &mut Vec<String>) {
    let id = id_of([1, 2, 3, 4]);
    let parts = [Some(b"ab".to_vec()), None, Some(b"cde".to_vec())];
    let limits = [0, 35, 43, 44, 80, 85, 1 << 20, 1 << 31, 1 << 40, u64::MAX];
    for kind in [0, 1, 2, 3, 4, 255, 256, 65535] {
        for count in [
            0,
            1,
            2,
            3,
            4,
            65_535,
            65_536,
            65_537,
            (1 << 28) - 1,
            1 << 28,
            (1 << 28) + 1,
            u32::MAX,
        ] {
            for ceiling in [0, 2, 65_536, 1 << 28, u32::MAX] {
                let mut wire = Wire::new(kind, 0, id, &parts);
                wire.count = count;
                let limit = limits[lines.len() % limits.len()];
                lines.push(format!(
                    "packet {limit} {ceiling} 9 {}",
                    hex(&wire.bytes(|sum| sum))
                ));
            }
        }
    }
    for at in 0..3 {
        for size in [
            0,
            1,
            2,
            3,
            4,
            (1 << 30) - 1,
            1 << 30,
            (1 << 30) + 1,
            1 << 31,
            NULL_SIZE - 1,
            NULL_SIZE,
        ] {
            for limit in [84, 85, 86, (1 << 30) + 82, (1 << 30) + 85, u64::MAX] {
                let mut wire = Wire::new(0, 0, id, &parts);
                wire.sizes[at] = size;
                lines.push(format!(
                    "packet {limit} 65536 9 {}",
                    hex(&wire.bytes(|sum| sum))
                ));
            }
        }
    }
    for signature in [
        0,
        1,
        SIGNATURE - 1,
        SIGNATURE + 1,
        SIGNATURE.swap_bytes(),
        u32::MAX,
    ] {
        let mut wire = Wire::new(0, 0, id, &parts);
        wire.signature = signature;
        lines.push(format!("packet 1000 9 9 {}", hex(&wire.bytes(|sum| sum))));
    }
}

/// As many parts as `decode` takes, and one more.
fn many_parts(lines: &mut Vec<String>) {
    for count in [65_535, 65_536, 65_537] {
        let nulls = vec![None; count];
        let bytes = Wire::new(0, 0, [0; 16], &nulls).bytes(|sum| sum);
        lines.push(format!("packet-default 1000000 65537 {}", hex(&bytes)));
        if count > 65_535 {
            lines.push(format!("packet-default 1000000 65535 {}", hex(&bytes)));
            lines.push(format!("packet 1000000 65537 65537 {}", hex(&bytes)));
        }
    }
    let bytes: Vec<Option<Vec<u8>>> = (0..65_536usize)
        .map(|at| Some(vec![at as u8; at % 2]))
        .collect();
    let wire = Wire::new(1, 0, [0; 16], &bytes).bytes(|sum| sum);
    lines.push(format!("packet-default 1000000 65536 {}", hex(&wire)));
}

fn packet_tables(lines: &mut Vec<String>) {
    let area = "0102030405";
    let tables: [&[u64]; 26] = [
        &[],
        &[0],
        &[0, NULL],
        &[1, NULL],
        &[0, NULL - 1],
        &[0, 0],
        &[5, 0],
        &[6, 0],
        &[NULL, 0],
        &[NULL, 1],
        &[NULL, NULL],
        &[0, 5],
        &[0, 6],
        &[1, 5],
        &[4, 1],
        &[5, 1],
        &[0, NULL, 0, 0, 0, 1],
        &[0, 1, 0, 0, 0, NULL],
        &[0, 5, 0, 5, 1, 3],
        &[0, 1, 2],
        &[9, 9, 2],
        &[0, 1, 9, 9],
        &[0, 1, 9, 9, 8, 8],
        &[3, 0u64.wrapping_sub(2)],
        &[1 << 63, 1 << 63],
        &[(1 << 63) + 1, 1 << 63],
    ];
    for table in tables {
        for kind in 0..3 {
            let text = words(&part_table(table));
            lines.push(format!("validate {kind} 0 {ID} {area} {text}"));
            lines.push(format!("packet-size {kind} 65535 {ID} {area} {text}"));
            let payload: u64 = table
                .chunks_exact(2)
                .map(|entry| if entry[1] > 5 { 0 } else { entry[1] })
                .sum();
            let size = 44 + 12 * (table.len() as u64 / 2) + payload;
            for room in [0, 35, 36, 43, 44, size - 1, size, size + 1, size + 20] {
                lines.push(format!("packet-write {kind} 1 {ID} {room} {area} {text}"));
            }
            for index in [0, 1, 2, 3, NULL] {
                lines.push(format!("part {index} {area} {text}"));
            }
        }
    }
    // A writer's 3: one part too many, by the shortest form of a table.
    let most = (PART as u64) << 28;
    lines.push(format!(
        "packet-write 0 0 {NO_ID} 0 - z{}",
        most + PART as u64
    ));
    for (size, table) in [
        (1 << 30, vec![0, 1 << 30]),
        ((1 << 30) + 1, vec![1, 1 << 30]),
        ((1 << 30) + 1, vec![0, (1 << 30) + 1]),
        (
            (1 << 30) + 1,
            vec![0, 3, 0, NULL, 0, (1 << 30) + 1, 0, (1 << 30) + 1],
        ),
        (1 << 30, vec![0, (1 << 30) + 1]),
        (
            1 << 30,
            vec![0, 1 << 30, 0, 1 << 30, 0, 1 << 30, 0, 1 << 30, 7, 7],
        ),
    ] {
        let text = words(&part_table(&table));
        lines.push(format!("validate 0 0 {NO_ID} z{size} {text}"));
        lines.push(format!("packet-size 1 0 {NO_ID} z{size} {text}"));
        lines.push(format!("packet-write 2 0 {NO_ID} 100 z{size} {text}"));
    }
    for count in [65_536, 65_537] {
        let text = words(&part_table(&[0, 0].repeat(count)));
        lines.push(format!("packet-size 0 0 {NO_ID} - {text}"));
        lines.push(format!("packet-write 0 0 {NO_ID} 1000000 - {text}"));
    }
}

pub fn rowset(list: &[&[u8]]) -> Vec<u8> {
    list.concat()
}

pub fn word(number: u64) -> [u8; 8] {
    number.to_le_bytes()
}

pub fn header(id: u16, kind: u8, aggregate: u8, length: u32) -> [u8; 8] {
    let [low, high] = id.to_le_bytes();
    let [a, b, c, d] = length.to_le_bytes();
    [low, high, kind, aggregate, a, b, c, d]
}

/// One row with every type.
fn every_type() -> Vec<u8> {
    rowset(&[
        &word(3),
        &word(NULL),
        &word(0),
        &word(8),
        &header(0, 2, 0, 0),
        &header(1, 3, 1, 0),
        &word(NULL),
        &header(2, 4, 0, 0),
        &word(1),
        &header(3, 5, 0, 0),
        &word(0x7ff0_0000_0000_0001),
        &header(4, 6, 0, 0),
        &word(1),
        &header(5, 16, 0, 5),
        b"hello\0\0\0",
        &header(0xffff, 17, 1, 8),
        b"eightful",
        &header(7, 18, 0, 0),
    ])
}

fn rowsets(lines: &mut Vec<String>) {
    let whole = every_type();
    for kind in ["rowset 9 9", "plain"] {
        lines.push(format!("{kind} -"));
        lines.push(format!("{kind} z7"));
        lines.push(format!("{kind} z8"));
        lines.push(format!("{kind} z9"));
        lines.push(format!("{kind} z1073741824"));
        lines.push(format!("{kind} z1073741825"));
        for keep in 0..=whole.len() {
            lines.push(format!("{kind} {}", hex_or_dash(&whole[..keep])));
        }
        for bit in 0..8 * whole.len() {
            let mut bytes = whole.clone();
            bytes[bit / 8] ^= 1 << (bit % 8);
            lines.push(format!("{kind} {}", hex(&bytes)));
        }
        lines.push(format!("{kind} {}00", hex(&whole)));
        lines.push(format!("{kind} {}", hex(&rowset(&[&word(1), &word(NULL)]))));
        lines.push(format!("{kind} {}", hex(&rowset(&[&word(1), &word(0)]))));
        // A five-byte string whose padding is missing.
        let short = rowset(&[&word(1), &word(1), &header(0, 16, 0, 5), b"hello"]);
        lines.push(format!("{kind} {}", hex(&short)));
        for count in [5_242_880, 5_242_881, 1 << 32, NULL - 1, NULL] {
            lines.push(format!("{kind} {}", hex(&word(count))));
            lines.push(format!(
                "{kind} {}",
                hex(&rowset(&[&word(count), &word(0)]))
            ));
        }
        for count in [0, 1, 1023, 1024, 1025, 1 << 32, NULL - 1, NULL] {
            lines.push(format!(
                "{kind} {}",
                hex(&rowset(&[&word(2), &word(NULL), &word(count)]))
            ));
        }
        for count in [1023, 1024, 1025] {
            let nulls = header(0, 2, 0, 0).repeat(count);
            let bytes = rowset(&[&word(1), &word(count as u64), &nulls]);
            let kind = kind.replace("9 9", "1 1024");
            lines.push(format!("{kind} {}", hex(&bytes)));
        }
        for (code, length) in (0..=255u8).flat_map(|code| [(code, 0), (code, 7)]) {
            let bytes = rowset(&[
                &word(1),
                &word(1),
                &header(1, code, 0, length),
                b"payload\0",
            ]);
            lines.push(format!("{kind} {}", hex(&bytes)));
            lines.push(format!("{kind} {}", hex(&bytes[..24])));
        }
        for length in [
            0,
            1,
            7,
            8,
            9,
            15,
            16,
            17,
            (1 << 24) - 1,
            1 << 24,
            (1 << 24) + 1,
            1 << 31,
            u32::MAX,
        ] {
            for have in [0, 7, 8, 9, 16, 24] {
                let bytes = rowset(&[
                    &word(1),
                    &word(1),
                    &header(1, 18, 0, length),
                    &vec![b'x'; have],
                ]);
                lines.push(format!("{kind} {}", hex(&bytes)));
            }
        }
    }
    for rows in 0..5 {
        for values in 6..10 {
            lines.push(format!("rowset {rows} {values} {}", hex(&whole)));
        }
    }
    for at in 0..=whole.len() + 9 {
        lines.push(format!("value {at} {}", hex(&whole)));
    }
    for at in [0, 1, 7, 8, 9, 1 << 32, NULL - 8, NULL - 7, NULL - 1, NULL] {
        lines.push(format!("value {at} -"));
        lines.push(format!("value {at} z8"));
        lines.push(format!("value {at} z1073741824"));
    }
}

/// Rows and values over ten bytes: whole tables, and each rule of 18.
pub fn row_tables() -> Vec<(Vec<u64>, Vec<u64>)> {
    let mut cases: Vec<(Vec<u64>, Vec<u64>)> = vec![
        (vec![], vec![]),
        (vec![0], vec![]),
        (vec![NULL], vec![]),
        (vec![NULL, 0, NULL], vec![]),
        (vec![1], vec![]),
        (vec![], vec![0, 2, 0, 0, 0]),
        (vec![1], vec![0, 2, 0, 0]),
        (vec![1], vec![0, 2, 0, 0, 0, 0]),
        (vec![NULL - 1, 2], vec![]),
        (vec![1 << 63, 1 << 63], vec![]),
        (vec![2, NULL, 1], [0, 2, 0, 0, 0].repeat(3)),
        (vec![2, 2], [0, 2, 0, 0, 0].repeat(3)),
        (vec![1], vec![1 << 16, 2, 2, 1, 1]),
        (vec![2], vec![0, 2, 0, 0, 0, 0, 7, 0, 0, 0]),
    ];
    for kind in [0, 1, 2, 3, 4, 5, 6, 7, 15, 16, 17, 18, 19, 256 + 16, NULL] {
        for aggregate in [0, 1, 2] {
            for (first, second) in [
                (0, 0),
                (1, 0),
                (2, 0),
                (0, 1),
                (0, 5),
                (10, 0),
                (11, 0),
                (10, 1),
                (0, 10),
                (0, 11),
                (2, 8),
                (3, 8),
                (NULL, 1),
                (1, NULL),
                (NULL, 0),
            ] {
                cases.push((vec![1], vec![0xffff, kind, aggregate, first, second]));
            }
        }
    }
    for id in [0, 0xffff, 0x1_0000, NULL] {
        cases.push((vec![1], vec![id, 3, 0, 5, 0]));
    }
    cases
}

fn rowset_tables(lines: &mut Vec<String>) {
    let area = "0102030405060708090a";
    for (rows, values) in row_tables() {
        let (rows, values) = (words(&rows), words(&values));
        lines.push(format!("rowset-size {area} {rows} {values}"));
        for room in [0, 7, 8, 15, 16, 24, 32, 40, 100] {
            lines.push(format!("rowset-write {room} {area} {rows} {values}"));
        }
    }
    for count in [1023, 1024, 1025] {
        let values = words(&[0, 2, 0, 0, 0].repeat(count + 1));
        lines.push(format!("rowset-size - 1,{count} {values}"));
        lines.push(format!("rowset-write 8232 - {count},1 {values}"));
    }
    for length in [(1 << 24) - 1, 1 << 24, (1 << 24) + 1] {
        for room in [0, 100] {
            lines.push(format!("rowset-write {room} z{length} 1 1,16,0,0,{length}"));
            lines.push(format!(
                "rowset-size z{length} 1,1 0,2,0,0,0,1,17,0,0,{length}"
            ));
        }
    }
    for over in [1, 8, 9] {
        let (rows, values) = crossing_with(over);
        lines.push(format!(
            "rowset-size z16777216 {} {}",
            words(&rows),
            words(&values)
        ));
    }
    let (_, values) = crossing_with(0);
    for (rows, more) in [
        ("64,0", ""),
        ("64,18446744073709551615", ""),
        ("64,0,1025", ""),
        ("65", ",0,2,0,0,0"),
        ("65", ",0,5,0,0,0"),
        ("64,1", ",0,18,0,0,9"),
    ] {
        lines.push(format!(
            "rowset-write 64 z16777216 {rows} {}{more}",
            words(&values)
        ));
    }
    for count in [5_242_880, 5_242_881] {
        let rows = words(&vec![0; count]);
        lines.push(format!("rowset-size - {rows} -"));
        lines.push(format!("rowset-write 64 - {rows} -"));
    }
}

/// Cases that cost gigabytes or minutes: the checksum of 2^30 bytes after one that is not zero, a
/// rowset of just the largest size, lengths above 2^32, and tables of 2^28 and 2^28 + 1 parts.
pub fn huge(count: usize, output: &mut impl Write) -> io::Result<()> {
    let (rows, values) = crossing_with(0);
    let (rows, values) = (words(&rows), words(&values));
    let long: u64 = (1 << 32) + 4;
    let cases = [
        format!("validate 0 0 {NO_ID} z{long} 0,{long},0"),
        format!("validate 0 0 {NO_ID} z{long} 0,4294967295,0"),
        format!("packet-size 0 0 {NO_ID} z{long} 0,4294967296,0"),
        format!("rowset-size z{long} 1 0,16,0,0,{long}"),
        format!("rowset-write 0 z{long} 1 0,16,0,0,4294967295"),
        format!("rowset-size z16777216 {rows} {values}"),
        format!("rowset-write 1073741823 z16777216 {rows} {values}"),
        String::from("crc 01 z1073741825"),
        String::from("crc 01 z1073741824 02"),
        format!("validate 0 0 {NO_ID} - z{}", (PART as u64) << 28),
        format!(
            "validate 0 0 {NO_ID} - z{}",
            ((PART as u64) << 28) + PART as u64
        ),
    ];
    for line in cases.into_iter().chain(terms::huge()).take(count) {
        writeln!(output, "{line}")?;
    }
    Ok(())
}
