//! Value tables to be packed: pairs of offset and length that come again under another type, that share
//! an offset, a length, their bytes or a bit pattern, scalars whose words are those of a pair, and tables
//! that break a rule of 18. The fixed ones are the readings' example, each word of each entry at its
//! bounds, and pairs that a search tree by their bits parts late.

use crate::random::Random;
use crate::rowsets::{NULL, VALUE_WORDS};
use crate::text::{hex, hex_or_dash, words};

/// The types by kind.
const SCALARS: [u64; 4] = [3, 4, 5, 6];
const BLOBS: [u64; 3] = [16, 17, 18];

pub fn case(random: &mut Random) -> String {
    let size = *random.pick(&[0, 1, 7, 8, 64, 200]);
    let area = if random.once_in(12) {
        format!("z{size}")
    } else {
        hex_or_dash(&random.content(size as usize))
    };
    let pool: Vec<(u64, u64)> = (0..1 + random.small(12))
        .map(|_| pair(random, size))
        .collect();
    let count = if random.once_in(80) {
        random.below(700)
    } else {
        random.small(24)
    };
    let fresh = *random.pick(&[0, 100, 500, 1000]);
    let mut values = Vec::new();
    for _ in 0..count {
        let place = if random.below(1000) < fresh {
            pair(random, size)
        } else {
            *random.pick(&pool)
        };
        values.extend_from_slice(&entry(random, place));
    }
    let needed = needed(&values);
    if random.once_in(4) {
        spoil(random, &mut values, size);
    }
    let room = match random.below(8) {
        0 => 0,
        1 => needed.saturating_sub(1),
        2 => random.below(needed + 1),
        3 => needed + random.below(40),
        4 => random.edge(),
        _ => needed,
    };
    line(room, &area, &values)
}

fn line(room: u64, area: &str, values: &[u64]) -> String {
    format!("pack {room} {area} {}", words(values))
}

/// A stretch of an area of so many bytes; one in six is empty.
fn pair(random: &mut Random, size: u64) -> (u64, u64) {
    let offset = match random.below(6) {
        0 => 0,
        1 => size,
        _ => random.below(size + 1),
    };
    let left = size - offset;
    let length = match random.below(6) {
        0 => 0,
        1 => left,
        2 => 1.min(left),
        _ => random.small(left + 1),
    };
    (offset, length)
}

/// An entry that keeps the rules: mostly a blob at the given place, else a scalar, whose word may be
/// the place's offset.
fn entry(random: &mut Random, (offset, length): (u64, u64)) -> [u64; VALUE_WORDS] {
    let id = u64::from(random.column());
    let aggregate = random.below(2);
    match random.below(8) {
        0 => [id, 2, aggregate, 0, 0],
        1 => match *random.pick(&SCALARS) {
            6 => [id, 6, aggregate, random.below(2), 0],
            kind if random.once_in(2) => [id, kind, aggregate, offset, 0],
            kind => [id, kind, aggregate, random.word(), 0],
        },
        _ => [id, *random.pick(&BLOBS), aggregate, offset, length],
    }
}

/// The bytes of the distinct pairs, counted the plain way.
fn needed(values: &[u64]) -> u64 {
    let mut seen: Vec<(u64, u64)> = Vec::new();
    for entry in values.chunks_exact(VALUE_WORDS) {
        let place = (entry[3], entry[4]);
        if BLOBS.contains(&entry[1]) && entry[4] > 0 && !seen.contains(&place) {
            seen.push(place);
        }
    }
    seen.iter().map(|place| place.1).sum()
}

/// Breaks rule 1 or 3, or comes close.
fn spoil(random: &mut Random, values: &mut Vec<u64>, size: u64) {
    match random.below(8) {
        0 => values.push(random.edge()),
        1 => {
            let keep = random.below(values.len() as u64 + 1) as usize;
            values.truncate(keep);
        }
        _ if values.is_empty() => values.extend_from_slice(&[0; VALUE_WORDS]),
        _ => {
            let at = VALUE_WORDS * random.below((values.len() / VALUE_WORDS) as u64) as usize;
            let bad = match random.below(6) {
                0 => (0, *random.pick(&[0xffff, 0x1_0000, 1 << 32, NULL])),
                1 => (
                    1,
                    *random.pick(&[0, 1, 2, 6, 7, 15, 16, 18, 19, 258, 65_552, NULL]),
                ),
                2 => (2, *random.pick(&[1, 2, 255, 65_536, NULL])),
                3 => (3, random.around_one_of(&[0, 1, size, NULL])),
                4 => (4, random.around_one_of(&[0, 1, size, NULL])),
                // An offset and a length that come to a small sum once it has wrapped.
                _ => (4, 0u64.wrapping_sub(random.below(size + 2))),
            };
            values[at + bad.0] = bad.1;
        }
    }
}

pub fn corners(lines: &mut Vec<String>) {
    example(lines);
    bounds(lines);
    late(lines);
    orders(lines);
}

fn text(bytes: &[u8]) -> String {
    hex(bytes)
}

/// The readings' example, in rooms around its sum, and what is packed, packed again.
fn example(lines: &mut Vec<String>) {
    let area = text(b"old Dorsch new Kabeljau");
    let values = [
        [1, 16, 0, 4, 6],
        [2, 17, 0, 15, 8],
        [3, 3, 0, 99, 0],
        [4, 18, 1, 4, 6],
        [5, 16, 0, 5, 5],
        [6, 16, 0, 23, 0],
    ];
    for room in [0, 1, 6, 18, 19, 20, 23, 1000, NULL] {
        lines.push(line(room, &area, values.as_flattened()));
    }
    let packed = [
        [1, 16, 0, 0, 6],
        [2, 17, 0, 6, 8],
        [3, 3, 0, 99, 0],
        [4, 18, 1, 0, 6],
        [5, 16, 0, 14, 5],
        [6, 16, 0, 0, 0],
    ];
    let area = text(b"DorschKabeljauorsch");
    for room in [18, 19, 20] {
        lines.push(line(room, &area, packed.as_flattened()));
    }
    // The second row's bytes are the first's, at another place: they are stored twice.
    lines.push(line(9, &text(b"codcod"), &[0, 16, 0, 0, 3, 0, 16, 0, 3, 3]));
    // One inside the other, one over the other's end.
    lines.push(line(
        9,
        &text(b"codling"),
        &[0, 16, 0, 0, 7, 0, 17, 0, 2, 2],
    ));
    lines.push(line(
        9,
        &text(b"codling"),
        &[0, 16, 0, 0, 4, 0, 17, 0, 3, 4],
    ));
}

/// Each word of an entry at and beyond its bounds, for each type, before and behind entries that are
/// good; tables that are not whole; no table; no area; and no room, with nothing to store.
fn bounds(lines: &mut Vec<String>) {
    let good = [7, 16, 1, 1, 3];
    for kind in [
        0, 1, 2, 3, 4, 5, 6, 7, 8, 15, 16, 17, 18, 19, 20, 255, 256, 272, 65_552, NULL,
    ] {
        for (word, list) in [
            (0, &[0, 65_535, 65_536, NULL][..]),
            (2, &[0, 1, 2, 65_536, NULL]),
            (3, &[0, 1, 2, 7, 8, 9, 65_536, NULL - 1, NULL]),
            (4, &[0, 1, 2, 8, 9, NULL - 1, NULL]),
        ] {
            for &number in list {
                for rest in [0, 2, 8] {
                    let mut entry = [1, kind, 0, 0, 0];
                    if word == 3 && (16..19).contains(&kind) {
                        entry[4] = rest;
                    } else if word == 4 {
                        entry[3] = rest;
                    } else if rest > 0 {
                        continue;
                    }
                    entry[word] = number;
                    let values = [good, entry, good];
                    lines.push(line(16, "0102030405060708", values.as_flattened()));
                }
            }
        }
    }
    for more in 1..5 {
        for count in 0..3 {
            let mut values = good.repeat(count);
            values.extend(vec![0; more]);
            lines.push(line(9, "01020304", &values));
        }
    }
    for area in ["-", "01", "z9"] {
        lines.push(line(0, area, &[]));
        lines.push(line(5, area, &[]));
        for room in [0, 1] {
            for offset in 0..3 {
                lines.push(line(room, area, &[1, 18, 0, offset, 0]));
                lines.push(line(room, area, &[1, 18, 0, offset, 1]));
            }
        }
    }
    // Longer than a value that can be written: 17 and not 12.
    lines.push(line(3, "z16777217", &[0, 16, 0, 0, 16_777_217]));
}

/// Pairs that agree in many low bits, or differ in one bit alone, of the offset or of the length.
fn late(lines: &mut Vec<String>) {
    let area = 1u64 << 17;
    for step in 0..17 {
        let mut offsets = Vec::new();
        let mut lengths = Vec::new();
        for at in 0..24 {
            let offset = (at << step) % area;
            offsets.extend_from_slice(&[at, 16, 0, offset, 1]);
            offsets.extend_from_slice(&[at, 17, 1, (area - 2) ^ offset.min(area - 2), 2]);
            lengths.extend_from_slice(&[at, 18, 0, 3, 1 + (at << step) % 512]);
        }
        for values in [offsets, lengths] {
            let repeated = [&values[..], &values[..]].concat();
            for values in [&values, &repeated] {
                let room = needed(values);
                lines.push(line(room, "z131072", values));
                lines.push(line(room.saturating_sub(1), "z131072", values));
            }
        }
    }
    let one_bit: Vec<u64> = (0..17)
        .flat_map(|bit| [[bit, 16, 0, 1 << bit, 1], [bit, 16, 0, 0, 1 << bit]])
        .flatten()
        .collect();
    lines.push(line(needed(&one_bit), "z131072", &one_bit));
}

/// 18 before 17, rule 1 before rule 3, and of two bad entries the first.
fn orders(lines: &mut Vec<String>) {
    let (long, bad) = ([0, 16, 0, 0, 4], [0, 7, 0, 0, 0]);
    for room in [0, 4] {
        lines.push(line(room, "01020304", [long, bad].as_flattened()));
        lines.push(line(room, "01020304", [bad, long].as_flattened()));
        lines.push(line(room, "01020304", [long, bad, bad].as_flattened()));
        let mut values = [long, bad].concat();
        values.push(0);
        lines.push(line(room, "01020304", &values));
    }
}
