//! Cases that read, write and check rowsets.

use crate::random::Random;
use crate::text::{hex_or_dash, words};

pub const NULL: u64 = u64::MAX;
/// The words of a value's entry in a table.
pub const VALUE_WORDS: usize = 5;

const TYPES: [u64; 8] = [2, 3, 4, 5, 6, 16, 17, 18];
const LONGEST: u64 = 1 << 24;
const LARGEST: u64 = 1 << 30;

// Reading.

/// How far a rowset may stray from the plain form, in chances out of a thousand for each field.
struct Stray {
    odd: u64,
    broken: u64,
}

fn put_word(bytes: &mut Vec<u8>, word: u64) {
    bytes.extend_from_slice(&word.to_le_bytes());
}

fn put_value(random: &mut Random, stray: &Stray, bytes: &mut Vec<u8>) {
    let odd = |random: &mut Random| random.below(1000) < stray.odd;
    let broken = |random: &mut Random| random.below(1000) < stray.broken;
    let mut kind = *random.pick(&TYPES) as u8;
    let mut aggregate = random.below(2) as u8;
    if odd(random) {
        aggregate = random.byte();
    }
    let id = random.column();
    let length = if random.once_in(100) {
        random.below(200)
    } else {
        random.small(20)
    };
    let blob = random.content(length as usize);
    let mut length = match kind {
        16..=18 => blob.len() as u32,
        _ if odd(random) => random.word32(),
        _ => 0,
    };
    let mut word = random.word();
    if kind == 6 && !odd(random) {
        word &= 1;
    }
    let shape = kind;
    if broken(random) {
        kind = match random.below(3) {
            0 => *random.pick(&TYPES) as u8,
            1 => *random.pick(&[0, 1, 7, 8, 15, 19, 32, 0x82, 255]),
            _ => kind ^ (1 << random.below(8)),
        };
    }
    if broken(random) {
        length = match random.below(4) {
            0 => random.word32(),
            1 => random.around(u64::from(length)) as u32,
            _ => *random.pick(&[
                0,
                LONGEST as u32 - 1,
                LONGEST as u32,
                LONGEST as u32 + 1,
                1 << 31,
                u32::MAX,
            ]),
        };
    }
    bytes.extend_from_slice(&id.to_le_bytes());
    bytes.push(kind);
    bytes.push(aggregate);
    bytes.extend_from_slice(&length.to_le_bytes());
    match shape {
        2 => {}
        3..=6 => put_word(bytes, word),
        _ => {
            bytes.extend_from_slice(&blob);
            let padding = bytes.len() + blob.len().next_multiple_of(8) - blob.len();
            bytes.resize(padding, 0);
            if blob.len() % 8 != 0 && odd(random) {
                let back = 1 + random.below(8 - blob.len() as u64 % 8) as usize;
                let at = bytes.len() - back;
                bytes[at] = 1 << random.below(8);
            }
        }
    }
}

/// Bytes that are a rowset, or nearly, and how many rows and values were put there.
fn sample(random: &mut Random, stray: &Stray) -> (Vec<u8>, u64, u64) {
    let mut rows = if random.once_in(300) {
        random.below(100)
    } else {
        random.small(6)
    };
    let mut bytes = Vec::new();
    let mut values = 0;
    let broken = |random: &mut Random| random.below(1000) < stray.broken;
    put_word(&mut bytes, rows);
    for _ in 0..rows {
        if random.once_in(6) {
            put_word(&mut bytes, NULL);
            continue;
        }
        let mut count = if random.once_in(60) {
            random.below(40)
        } else {
            random.small(6)
        };
        if random.once_in(2000) {
            count = *random.pick(&[1023, 1024, 1025]);
        }
        let mut word = count;
        if broken(random) {
            word = match random.below(3) {
                0 => random.around(count),
                1 => *random.pick(&[0, 1024, 1025, 1 << 32, NULL - 1, NULL]),
                _ => random.word(),
            };
        }
        put_word(&mut bytes, word);
        for _ in 0..count {
            put_value(random, stray, &mut bytes);
        }
        values += count;
    }
    if broken(random) {
        rows = match random.below(3) {
            0 => random.around(rows),
            1 => *random.pick(&[0, 5_242_880, 5_242_881, 1 << 32, NULL]),
            _ => random.word(),
        };
        bytes[..8].copy_from_slice(&rows.to_le_bytes());
    }
    (bytes, rows, values)
}

fn strays(random: &mut Random) -> Stray {
    let (odd, broken) = *random.pick(&[(0, 0), (200, 0), (50, 60), (0, 120)]);
    Stray { odd, broken }
}

/// Cuts or lengthens the bytes, or changes a few of them.
fn worn(random: &mut Random, bytes: &mut Vec<u8>) {
    match random.below(12) {
        0 => {
            let keep = random.below(bytes.len() as u64 + 1) as usize;
            bytes.truncate(keep);
        }
        1 => {
            let keep = 8 * random.below(bytes.len() as u64 / 8 + 1) as usize;
            bytes.truncate(keep);
        }
        2 => {
            let keep = bytes.len().saturating_sub(1 + random.below(8) as usize);
            bytes.truncate(keep);
        }
        3 => {
            let length = 1 + random.small(20) as usize;
            let tail = random.content(length);
            bytes.extend_from_slice(&tail);
        }
        4 => random.damage(bytes),
        5 if random.once_in(8) => {
            let length = random.small(30) as usize;
            *bytes = random.content(length);
        }
        _ => {}
    }
}

pub fn room(random: &mut Random, count: u64) -> u64 {
    // What a driver can hold.
    let count = count.min(5000);
    match random.below(10) {
        0 => 0,
        1 => count.saturating_sub(1),
        2 => count + 1,
        3 => random.below(2000),
        4 => random.below(count + 1),
        _ => count + random.below(3),
    }
}

pub fn read(random: &mut Random) -> String {
    let stray = strays(random);
    let (mut bytes, rows, values) = sample(random, &stray);
    worn(random, &mut bytes);
    let rows = room(random, rows);
    let values = room(random, values);
    format!("rowset {rows} {values} {}", hex_or_dash(&bytes))
}

pub fn plain(random: &mut Random) -> String {
    let stray = match random.below(4) {
        0 | 1 => Stray { odd: 0, broken: 0 },
        2 => Stray { odd: 80, broken: 0 },
        _ => Stray {
            odd: 20,
            broken: 20,
        },
    };
    let (mut bytes, _, _) = sample(random, &stray);
    match random.below(10) {
        0 => worn(random, &mut bytes),
        1 => {
            let at = random.below(bytes.len() as u64) as usize;
            bytes[at] ^= 1 << random.below(8);
        }
        _ => {}
    }
    format!("plain {}", hex_or_dash(&bytes))
}

pub fn value(random: &mut Random) -> String {
    let stray = strays(random);
    let before = random.small(20) as usize;
    let mut bytes = random.content(before);
    for _ in 0..1 + random.small(3) {
        put_value(random, &stray, &mut bytes);
    }
    worn(random, &mut bytes);
    let at = match random.below(12) {
        0 => bytes.len() as u64,
        1 => bytes.len() as u64 + 1,
        2 => random.below(bytes.len() as u64 + 10),
        3 => random.edge(),
        4 => random.around(before as u64),
        5 => (bytes.len() as u64).saturating_sub(random.below(18)),
        _ => before as u64,
    };
    format!("value {at} {}", hex_or_dash(&bytes))
}

// Writing.

pub struct Tables {
    pub area: String,
    pub rows: Vec<u64>,
    pub values: Vec<u64>,
}

/// Tables over an area whose bytes `content` draws.
pub fn tables(random: &mut Random, content: fn(&mut Random, usize) -> Vec<u8>) -> Tables {
    match random.below(400) {
        0 => return crossing(random),
        1 => return long(random),
        2 if random.once_in(4) => return wide(random),
        _ => {}
    }
    let size = random.small(60);
    let area = if random.once_in(15) {
        format!("z{size}")
    } else {
        hex_or_dash(&content(random, size as usize))
    };
    let mut rows = Vec::new();
    let mut values = Vec::new();
    for _ in 0..random.small(6) {
        if random.once_in(6) {
            rows.push(NULL);
            continue;
        }
        let count = if random.once_in(60) {
            random.below(40)
        } else {
            random.small(6)
        };
        rows.push(count);
        for _ in 0..count {
            values.extend_from_slice(&entry(random, size));
        }
    }
    if random.once_in(4) {
        spoil(random, &mut rows, &mut values, size);
    }
    Tables { area, rows, values }
}

fn entry(random: &mut Random, size: u64) -> [u64; VALUE_WORDS] {
    let id = u64::from(random.column());
    let kind = *random.pick(&TYPES);
    let (word, length) = match kind {
        2 => (0, 0),
        3..=5 => (random.word(), 0),
        6 => (random.below(2), 0),
        _ => {
            let offset = if random.once_in(6) {
                size
            } else {
                random.below(size + 1)
            };
            (offset, random.below(size - offset + 1))
        }
    };
    [id, kind, random.below(2), word, length]
}

/// Breaks a rule of refusal 18, or comes close.
fn spoil(random: &mut Random, rows: &mut Vec<u64>, values: &mut Vec<u64>, size: u64) {
    match random.below(12) {
        0 => values.push(random.edge()),
        1 => {
            let keep = random.below(values.len() as u64 + 1) as usize;
            values.truncate(keep);
        }
        2 => rows.push(*random.pick(&[0, 1, NULL, NULL - 1])),
        3 => {
            // Counts that come to the right sum once it has wrapped.
            let wrapped = random.next();
            rows.push(wrapped);
            rows.push(0u64.wrapping_sub(wrapped));
        }
        4 if !rows.is_empty() => {
            let at = random.below(rows.len() as u64) as usize;
            rows[at] = random.word();
        }
        _ if values.is_empty() => rows.push(1),
        _ => {
            let at = VALUE_WORDS * random.below((values.len() / VALUE_WORDS) as u64) as usize;
            match random.below(6) {
                0 => values[at] = *random.pick(&[0xffff, 0x1_0000, 1 << 32, NULL]),
                1 => {
                    values[at + 1] =
                        *random.pick(&[0, 1, 2, 6, 7, 15, 16, 18, 19, 258, 1 << 32, NULL])
                }
                2 => values[at + 2] = *random.pick(&[1, 2, 255, 256, NULL]),
                3 => values[at + 3] = random.around_one_of(&[0, 1, size, size, NULL]),
                4 => values[at + 4] = random.around_one_of(&[0, 1, size, NULL]),
                _ => {
                    values[at + 3] = size - random.below(size + 1);
                    values[at + 4] = 0u64.wrapping_sub(random.below(size + 1));
                }
            }
        }
    }
}

/// A blob at the longest length that is allowed.
fn long(random: &mut Random) -> Tables {
    let length = LONGEST + random.below(2);
    let kind = *random.pick(&[16, 17, 18]);
    let mut values = vec![1, kind, 0, 0, length];
    let mut rows = vec![1];
    if random.once_in(2) {
        rows.insert(0, random.below(2));
        if rows[0] == 1 {
            values.splice(0..0, [0, 2, 1, 0, 0]);
        }
    }
    Tables {
        area: format!("z{length}"),
        rows,
        values,
    }
}

/// A row of as many values as are allowed, and one more or less.
fn wide(random: &mut Random) -> Tables {
    let count = 1023 + random.below(3);
    let values = [0, 2, 0, 0, 0].repeat(count as usize);
    let rows = if random.once_in(2) {
        vec![NULL, count]
    } else {
        vec![count]
    };
    Tables {
        area: String::from("-"),
        rows,
        values,
    }
}

/// Blobs that share one area and together cross the largest rowset, at a blob, a Null, a scalar or
/// a row's own word.
pub fn crossing_with(over: u64) -> (Vec<u64>, Vec<u64>) {
    // One row word, 64 blobs; the last is shortened so that the sum is just the largest size.
    let mut values = [9, 16, 0, 0, LONGEST].repeat(63);
    let last = LARGEST - 16 - 63 * (8 + LONGEST) - 8;
    values.extend_from_slice(&[9, 17, 1, 0, last + over]);
    (vec![64], values)
}

fn crossing(random: &mut Random) -> Tables {
    let over = if random.once_in(3) {
        1 + random.below(9)
    } else {
        0
    };
    let (mut rows, mut values) = crossing_with(over);
    match random.below(5) {
        0 => rows.push(NULL),
        1 => rows.push(0),
        2 => {
            rows[0] += 1;
            values.extend_from_slice(&[0, 2, 0, 0, 0]);
        }
        3 => {
            rows[0] += 1;
            values.extend_from_slice(&[0, 3, 0, 1, 0]);
        }
        _ => {
            rows.push(1);
            values.extend_from_slice(&[0, 18, 0, 5, 6]);
        }
    }
    Tables {
        area: format!("z{LONGEST}"),
        rows,
        values,
    }
}

/// The bytes that a rowset over these tables has, where they keep their rules.
fn measure(tables: &Tables) -> u64 {
    let payload = |entry: &[u64]| match entry[1] {
        2 => 8u64,
        16..=18 => entry[4].div_ceil(8).saturating_mul(8).saturating_add(8),
        _ => 16,
    };
    let values = tables
        .values
        .chunks_exact(VALUE_WORDS)
        .map(payload)
        .fold(0, u64::saturating_add);
    values.saturating_add(8 + 8 * tables.rows.len() as u64)
}

pub fn write(random: &mut Random) -> String {
    let tables = tables(random, Random::content);
    let size = measure(&tables);
    let room = match random.below(10) {
        0 => 0,
        1 => size.saturating_sub(1).min(1 << 20),
        2 => random.below(size.min(1 << 12)),
        3 => size.saturating_sub(8).min(1 << 20),
        4 if size < 1 << 20 => size + 1,
        5 if size < 1 << 20 => size + random.below(50),
        _ => size.min(1 << 20),
    };
    let Tables { area, rows, values } = tables;
    format!(
        "rowset-write {room} {area} {} {}",
        words(&rows),
        words(&values)
    )
}

pub fn size(random: &mut Random) -> String {
    let Tables { area, rows, values } = tables(random, Random::content);
    format!("rowset-size {area} {} {}", words(&rows), words(&values))
}
