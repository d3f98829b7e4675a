//! Fixed cases with which every run over all kinds begins: corners that drawn cases seldom meet, each
//! found missing once. They stand beside `edges`, from which the stored sample of `replay` is chosen.

use crate::edges::{ID, NO_ID, header, rowset, word};
use crate::errors;
use crate::pack;
use crate::packets::{SIGNATURE, Wire, id_of, part_table};
use crate::rowsets::NULL;
use crate::sums;
use crate::terms;
use crate::text::{hex, words};
use crate::yson;

pub fn list() -> Vec<String> {
    let mut lines = Vec::new();
    booleans(&mut lines);
    ceilings(&mut lines);
    writer_types(&mut lines);
    live(&mut lines);
    guid_rooms(&mut lines);
    nulls(&mut lines);
    registers(&mut lines);
    sums::lengths(&mut lines);
    sums::powers(&mut lines);
    caps(&mut lines);
    large_reads(&mut lines);
    lengths(&mut lines);
    engines(&mut lines);
    pack::corners(&mut lines);
    yson::corners(&mut lines);
    errors::corners(&mut lines);
    terms::corners(&mut lines);
    lines
}

/// A boolean word of 2 and above is true, and its rowset is not plain; so with the aggregate byte.
fn booleans(lines: &mut Vec<String>) {
    for truth in [0, 1, 2, 3, 255, 256, 1 << 32, 1 << 56, 1 << 63, u64::MAX] {
        for aggregate in [0, 1, 2, 255] {
            for length in [0, 1] {
                let head = header(7, 6, aggregate, length);
                let bytes = rowset(&[&word(1), &word(1), &head, &word(truth)]);
                for kind in ["plain", "rowset 9 9", "rowset 1 1", "rowset 1 0"] {
                    lines.push(format!("{kind} {}", hex(&bytes)));
                }
                lines.push(format!("value 16 {}", hex(&bytes)));
            }
        }
    }
}

/// A Null's length word is not read, and its rowset is plain only where the word is 0 (document 02, A2).
fn nulls(lines: &mut Vec<String>) {
    for length in [0, 1, 1 << 8, 1 << 16, 1 << 24, 1 << 31, u32::MAX] {
        for aggregate in [0, 1, 2] {
            let head = header(7, 2, aggregate, length);
            let bytes = rowset(&[&word(1), &word(2), &head, &header(8, 3, 0, 0), &word(5)]);
            lines.push(format!("plain {}", hex(&bytes)));
            lines.push(format!("rowset 1 2 {}", hex(&bytes)));
            lines.push(format!("value 16 {}", hex(&bytes)));
        }
    }
}

/// Counts beside the ceilings 2^28 - 1, 2^28 and 2^32 - 1.
fn ceilings(lines: &mut Vec<String>) {
    for count in [
        (1 << 28) - 1,
        1 << 28,
        (1 << 28) + 1,
        u32::MAX - 1,
        u32::MAX,
    ] {
        let ceilings = [
            (1 << 28) - 2,
            (1 << 28) - 1,
            1 << 28,
            u32::MAX - 1,
            u32::MAX,
        ];
        for ceiling in ceilings {
            for kind in 0..3 {
                let mut wire = Wire::new(kind, 0, id_of([1, 2, 3, 4]), &[]);
                wire.count = count;
                let bytes = hex(&wire.bytes(|sum| sum));
                lines.push(format!("packet {} {ceiling} 9 {bytes}", u64::MAX));
                lines.push(format!("packet 100 {ceiling} 9 {bytes}"));
            }
        }
    }
}

/// The exported writer takes a number for a type.
fn writer_types(lines: &mut Vec<String>) {
    let tables = [
        "-",
        "0,1,0",
        "0,18446744073709551615,7",
        "0",
        "0,1",
        "5,1,0",
        "0,1,9,1,1,18446744073709551615",
    ];
    for kind in [0, 1, 2, 3, 4, 255, 256, 65_535, 65_536, 1 << 32, u64::MAX] {
        for table in tables {
            lines.push(format!("typed-write {kind} 1000 0102 {table}"));
            lines.push(format!("typed-write {kind} 40 0102 {table}"));
            lines.push(format!("typed-size {kind} 0102 {table}"));
        }
    }
}

/// Type 2 in both modes, with what stands before 24 in its order and behind it: a length under 36, a
/// wrong signature, types 258 and 514, a wrong checksum, too many parts, a byte limit; and in writing
/// each rule of 18, 4 and a short room.
fn live(lines: &mut Vec<String>) {
    for mode in ["", "-live"] {
        for kind in [0, 1, 2, 3, 258, 514] {
            for signature in [SIGNATURE, SIGNATURE ^ 1] {
                for count in [0, 1, 65_537] {
                    for spoiled in [0, 1] {
                        let parts = vec![Some(vec![7; 3]); usize::from(count == 1)];
                        let mut wire = Wire::new(kind, 0, id_of([1, 2, 3, 4]), &parts);
                        wire.signature = signature;
                        wire.count = count;
                        let bytes = wire.bytes(|sum| sum ^ spoiled);
                        for length in [5, 6, 35, 36, bytes.len()] {
                            let bytes = hex(&bytes[..length]);
                            lines.push(format!("packet{mode} 100 9 1 {bytes}"));
                            lines.push(format!("packet-default{mode} 40 0 {bytes}"));
                        }
                    }
                }
            }
        }
        for kind in 0..3 {
            for table in ["-", "0,1,1,1", "0", "5,1"] {
                lines.push(format!("packet-size{mode} {kind} 0 {NO_ID} 0102 {table}"));
                lines.push(format!("validate{mode} {kind} 0 {NO_ID} 0102 {table}"));
                for room in [0, 1000] {
                    lines.push(format!(
                        "packet-write{mode} {kind} 0 {NO_ID} {room} 0102 {table}"
                    ));
                }
            }
        }
        let large = (1 << 30) + 1;
        lines.push(format!("validate{mode} 2 0 {NO_ID} z{large} 0,{large}"));
    }
}

/// A GUID's text and bytes, into rooms around what they need.
fn guid_rooms(lines: &mut Vec<String>) {
    let ids = [
        ID,
        NO_ID,
        "ffffffffffffffffffffffffffffffff",
        "10000000000100000010000000000100",
    ];
    for id in ids {
        for room in (0..40).chain([1000, u64::MAX]) {
            lines.push(format!("guid-text {id} {room}"));
        }
        for room in (0..20).chain([1000, u64::MAX]) {
            lines.push(format!("guid-bytes {id} {room}"));
        }
    }
}

/// Folding from registers that are not 0.
fn registers(lines: &mut Vec<String>) {
    let registers = [
        0,
        1,
        0x80,
        0x8000_0000_0000_0000,
        0x0100_0000_0000_0000,
        0xe543_2797_6592_7881,
        0x8178_9265_9727_43e5,
        0x0123_4567_89ab_cdef,
        u64::MAX,
    ];
    for register in registers {
        for bytes in [
            "-",
            "00",
            "01",
            "80",
            "ff",
            "0102030405060708",
            "01e543279765927881",
            "z100",
        ] {
            lines.push(format!("update {register} {bytes}"));
        }
        lines.push(format!("update {register} ff+z1000+01"));
    }
}

/// Sizes told in 32 bits, of stretches at and above 2^32 - 1. Their area is only measured.
fn caps(lines: &mut Vec<String>) {
    let area = format!("z{}", (1u64 << 32) + 1);
    for length in [(1u64 << 32) - 2, (1 << 32) - 1, 1 << 32, (1 << 32) + 1] {
        lines.push(format!("validate 0 0 {NO_ID} {area} 0,0,5,0,{length},0"));
        lines.push(format!("packet-size 1 0 {NO_ID} {area} 0,{length},1"));
        lines.push(format!("rowset-size {area} 1 0,16,0,0,{length}"));
        lines.push(format!("rowset-write 100 {area} 1 0,18,0,0,{length}"));
    }
}

/// Reads at their limits that are accepted: as many rows as there may be, empty and null, and the
/// longest blob.
fn large_reads(lines: &mut Vec<String>) {
    let rows = 5_242_880u64;
    let count = hex(&word(rows));
    lines.push(format!("rowset {rows} 0 {count}+z{}", 8 * rows));
    lines.push(format!("rowset {} 0 {count}+z{}", rows - 1, 8 * rows));
    lines.push(format!(
        "rowset {rows} 0 {count}+{}+z{}",
        hex(&word(NULL)),
        8 * (rows - 1)
    ));
    lines.push(format!(
        "rowset {rows} 0 {}+z{}",
        hex(&word(rows + 1)),
        8 * (rows + 1)
    ));
    for length in [(1 << 24) - 1, 1 << 24, (1 << 24) + 1] {
        let front = hex(&rowset(&[&word(1), &word(1), &header(1, 17, 0, length)]));
        lines.push(format!("rowset 1 1 {front}+z16777216"));
        lines.push(format!("rowset 1 1 {front}+z16777217"));
        lines.push(format!("plain {front}+z16777216"));
        lines.push(format!("value 16 {front}+z16777216"));
    }
}

/// Parts of the lengths at which another engine of the checksum takes over, written and read; the second
/// part begins in the middle of the area.
fn engines(lines: &mut Vec<String>) {
    for from in [8usize, 96, 4096, 5120, 4096 + 1856, 2 * 4096 + 1856] {
        for length in [from - 1, from, from + 1, from + 24] {
            let area: Vec<u8> = (0..2 * length)
                .map(|i| (i.wrapping_mul(37) ^ (i >> 7)) as u8)
                .collect();
            let half = length as u64;
            lines.push(format!(
                "packet-write 0 0 {ID} {} {} {}",
                44 + 24 + 2 * length,
                hex(&area),
                words(&part_table(&[0, half, half - 3, half]))
            ));
            let parts = [Some(area[..length].to_vec()), Some(area[length..].to_vec())];
            let packet = hex(&Wire::new(0, 5, id_of([9, 8, 7, 6]), &parts).bytes(|sum| sum));
            lines.push(format!("packet 100000 65536 2 {packet}"));
        }
    }
}

/// Inputs of each length from 0 on: the driver places each at its own remainder by eight, and lends
/// a table with words beyond its whole entries.
fn lengths(lines: &mut Vec<String>) {
    for length in 0..24usize {
        let bytes: Vec<u8> = (0..length as u8)
            .map(|byte| byte.wrapping_mul(37))
            .collect();
        let parts = [None, Some(bytes.clone()), Some(vec![9; length / 2])];
        let packet = hex(&Wire::new(0, 5, id_of([9, 8, 7, 6]), &parts).bytes(|sum| sum));
        for room in 0..5 {
            lines.push(format!("packet 1000 65536 {room} {packet}"));
            lines.push(format!("packet-default 1000 {room} {packet}ff"));
        }
        let padded = [&bytes[..], &[0; 8][..(8 - length % 8) % 8]].concat();
        let head = header(3, 16, 1, length as u32);
        let bytes = rowset(&[&word(2), &word(NULL), &word(1), &head, &padded]);
        for tail in ["", "00", "0000", "000000", "00000000"] {
            for room in 0..3 {
                lines.push(format!("rowset {room} {room} {}{tail}", hex(&bytes)));
            }
            lines.push(format!("plain {}{tail}", hex(&bytes)));
        }
        let area = hex(&vec![7; length + 1]);
        let table = words(&part_table(&[0, length as u64, 1, length as u64]));
        lines.push(format!(
            "packet-write 0 0 {ID} {} {area} {table}",
            44 + 24 + 2 * length
        ));
        let values = words(&[0, 16, 0, 1, length as u64]);
        lines.push(format!(
            "rowset-write {} {area} 1 {values}",
            24 + length.next_multiple_of(8)
        ));
    }
}
