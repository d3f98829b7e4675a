//! Cases that read, write and take apart packets.

use crate::random::Random;
use crate::seal::checksum;
use crate::text::{hex, hex_or_dash, words};

pub const SIGNATURE: u32 = 0x7861_6d4f;
pub const NULL_SIZE: u32 = u32::MAX;
const LARGEST: u64 = 1 << 30;

/// A packet as it stands on the wire, before its checksums are put in.
pub struct Wire {
    pub signature: u32,
    pub kind: u16,
    pub flags: u16,
    pub id: [u8; 16],
    pub count: u32,
    pub sizes: Vec<u32>,
    pub parts: Vec<Vec<u8>>,
}

impl Wire {
    pub fn new(kind: u16, flags: u16, id: [u8; 16], parts: &[Option<Vec<u8>>]) -> Self {
        let size =
            |part: &Option<Vec<u8>>| part.as_ref().map_or(NULL_SIZE, |bytes| bytes.len() as u32);
        Wire {
            signature: SIGNATURE,
            kind,
            flags,
            id,
            count: parts.len() as u32,
            sizes: parts.iter().map(size).collect(),
            parts: parts
                .iter()
                .map(|part| part.clone().unwrap_or_default())
                .collect(),
        }
    }

    /// The bytes, each checksum word passed through `word` (which keeps, drops or spoils it).
    pub fn bytes(&self, mut word: impl FnMut(u64) -> u64) -> Vec<u8> {
        let mut bytes = Vec::new();
        bytes.extend_from_slice(&self.signature.to_le_bytes());
        bytes.extend_from_slice(&self.kind.to_le_bytes());
        bytes.extend_from_slice(&self.flags.to_le_bytes());
        bytes.extend_from_slice(&self.id);
        bytes.extend_from_slice(&self.count.to_le_bytes());
        bytes.extend_from_slice(&word(checksum(&bytes)).to_le_bytes());
        if self.kind != 0 && self.sizes.is_empty() {
            return bytes;
        }
        for size in &self.sizes {
            bytes.extend_from_slice(&size.to_le_bytes());
        }
        for part in &self.parts {
            bytes.extend_from_slice(&word(checksum(part)).to_le_bytes());
        }
        let sum = checksum(&bytes[36..]);
        bytes.extend_from_slice(&word(sum).to_le_bytes());
        for part in &self.parts {
            bytes.extend_from_slice(part);
        }
        bytes
    }
}

pub fn id_of(words: [u32; 4]) -> [u8; 16] {
    let mut bytes = [0; 16];
    for (at, word) in words.iter().enumerate() {
        bytes[4 * at..4 * at + 4].copy_from_slice(&word.to_le_bytes());
    }
    bytes
}

// Reading.

fn parts(random: &mut Random) -> Vec<Option<Vec<u8>>> {
    let count = match random.below(200) {
        0 => 20 + random.below(300),
        1..=40 => 0,
        _ => random.small(7),
    };
    (0..count)
        .map(|_| match random.below(10) {
            0 | 1 => None,
            2 => Some(Vec::new()),
            _ => {
                let length = if random.once_in(60) {
                    100 + random.below(400)
                } else {
                    random.small(24)
                };
                Some(random.content(length as usize))
            }
        })
        .collect()
}

/// Changes one field, as a peer that seals what it sends would.
fn change(random: &mut Random, wire: &mut Wire) {
    match random.below(12) {
        0 => wire.signature ^= 1 << random.below(32),
        1 => {
            wire.signature = *random.pick(&[0, 1, SIGNATURE.swap_bytes(), SIGNATURE + 1, u32::MAX])
        }
        2 => wire.kind = *random.pick(&[3, 4, 255, 256, 257, 258, 514, 0x8000, 0xffff]),
        3 => wire.kind ^= 1 << random.below(16),
        4 => {
            wire.count = *random.pick(&[
                0,
                1,
                2,
                65_535,
                65_536,
                65_537,
                (1 << 28) - 1,
                1 << 28,
                (1 << 28) + 1,
                1 << 31,
                u32::MAX,
            ]);
        }
        5 => wire.count = random.around(u64::from(wire.count)) as u32,
        _ if wire.sizes.is_empty() => wire.kind = random.below(3) as u16,
        _ => {
            let at = random.below(wire.sizes.len() as u64) as usize;
            wire.sizes[at] = match random.below(4) {
                0 => random.around(u64::from(wire.sizes[at])) as u32,
                1 => NULL_SIZE,
                _ => *random.pick(&[
                    0,
                    1,
                    1 << 20,
                    (1 << 30) - 1,
                    1 << 30,
                    (1 << 30) + 1,
                    1 << 31,
                    NULL_SIZE - 1,
                ]),
            };
        }
    }
}

/// Bytes that are a packet, or nearly, and how many parts they hold.
fn sample(random: &mut Random) -> (Vec<u8>, u64) {
    let parts = parts(random);
    let count = parts.len() as u64;
    let kind = *random.pick(&[0, 0, 0, 1, 2]);
    let mut wire = Wire::new(kind, random.flags(), random.id(), &parts);
    let mode = random.below(100);
    if (35..65).contains(&mode) {
        change(random, &mut wire);
        if random.once_in(6) {
            change(random, &mut wire);
        }
    }
    let style = random.below(8);
    let mut bytes = wire.bytes(|sum| match (style, random.below(8)) {
        (0, _) => 0,
        (1, 0..4) => 0,
        (2, 0..2) => sum ^ (1 << random.below(64)),
        (3, 0) => random.next(),
        // The word of a null or empty part has checksum 0; a word that is not 0 must be looked at
        // for the one and not for the other.
        (4, 0..3) if sum == 0 => random.word(),
        (5, 0) => sum.swap_bytes(),
        _ => sum,
    });
    match mode {
        65..75 => random.damage(&mut bytes),
        75..78 => {
            random.damage(&mut bytes);
            random.damage(&mut bytes);
        }
        78..88 => cut(random, &mut bytes, count),
        88..96 => {
            let length = random.small(40) as usize;
            let tail = random.content(length);
            bytes.extend_from_slice(&tail);
        }
        96..98 => {
            let next = Wire::new(1, 0, random.id(), &[]).bytes(|sum| sum);
            bytes.extend_from_slice(&next);
        }
        98 => {
            let length = random.small(60) as usize;
            bytes = random.content(length);
        }
        _ => {}
    }
    (bytes, count)
}

fn cut(random: &mut Random, bytes: &mut Vec<u8>, count: u64) {
    let whole = bytes.len() as u64;
    let headers = 44 + 12 * count;
    let keep = match random.below(6) {
        0 => random.around(36),
        1 => random.around(headers),
        2 => random.around(whole - 1),
        3 => random.around(36 + 4 * count),
        _ => random.below(whole),
    };
    bytes.truncate(keep as usize);
}

fn limit(random: &mut Random, whole: u64, count: u64) -> u64 {
    match random.below(20) {
        0 => random.around(whole),
        1 => whole,
        2 => random.around(44 + 12 * count),
        3 => random.around(36),
        4 => random.around(44),
        5 => random.edge(),
        6 => 0,
        7 => random.below(whole + 10),
        8..12 => 1 << 20,
        12 | 13 => 1 << 34,
        _ => u64::MAX,
    }
}

fn ceiling(random: &mut Random, count: u64) -> u64 {
    match random.below(12) {
        0 => count.saturating_sub(1),
        1 => count,
        2 => count + 1,
        3 => 0,
        4 => *random.pick(&[
            1,
            65_535,
            65_537,
            (1 << 28) - 1,
            1 << 28,
            (1 << 28) + 1,
            1 << 31,
        ]),
        5..8 => 65_536,
        _ => u64::from(u32::MAX),
    }
}

fn room(random: &mut Random, count: u64) -> u64 {
    match random.below(12) {
        0 => 0,
        1 => count.saturating_sub(1),
        2 => random.below(count + 1),
        3 => random.below(500),
        4 => count + 1,
        _ => count + random.below(4),
    }
}

pub fn read(random: &mut Random) -> String {
    let (bytes, count) = sample(random);
    let limit = limit(random, bytes.len() as u64, count);
    let ceiling = ceiling(random, count);
    let room = room(random, count);
    format!("packet {limit} {ceiling} {room} {}", hex_or_dash(&bytes))
}

pub fn read_default(random: &mut Random) -> String {
    let (bytes, count) = sample(random);
    let limit = limit(random, bytes.len() as u64, count);
    let room = room(random, count);
    format!("packet-default {limit} {room} {}", hex_or_dash(&bytes))
}

/// The case in live mode.
fn live(case: String) -> String {
    let (kind, words) = case.split_once(' ').unwrap_or((&case, ""));
    format!("{kind}-live {words}")
}

pub fn read_live(random: &mut Random) -> String {
    live(read(random))
}

pub fn read_default_live(random: &mut Random) -> String {
    live(read_default(random))
}

// Writing.

/// The words of a part in a table: offset, length, and the stored checksum, which a writer does not read.
pub const PART: usize = 3;

/// A table of parts from offsets and lengths, with a third word behind each two; a word left over stays.
pub fn part_table(pairs: &[u64]) -> Vec<u64> {
    let mut words = Vec::new();
    for pair in pairs.chunks(2) {
        words.extend_from_slice(pair);
        if let [offset, length] = pair {
            words.push(offset.rotate_left(7) ^ length.wrapping_mul(0x9e37_79b9_7f4a_7c15));
        }
    }
    words
}

/// An area, its size and a table of parts over it.
struct Table {
    area: String,
    words: Vec<u64>,
}

fn table(random: &mut Random) -> Table {
    if random.once_in(4000) {
        return large(random);
    }
    let size = match random.below(20) {
        0 => 0,
        1 => 200 + random.below(300),
        _ => random.small(60),
    };
    let area = if random.once_in(15) {
        format!("z{size}")
    } else {
        hex_or_dash(&random.content(size as usize))
    };
    let count = if random.once_in(150) {
        random.below(200)
    } else {
        random.small(6)
    };
    let mut words = Vec::new();
    for _ in 0..count {
        let (offset, length) = entry(random, size);
        words.push(offset);
        words.push(length);
        words.push(random.word());
    }
    if random.once_in(5) {
        spoil(random, &mut words, size);
    }
    Table { area, words }
}

fn entry(random: &mut Random, size: u64) -> (u64, u64) {
    match random.below(8) {
        0 | 1 => (0, u64::MAX),
        2 => (random.below(size + 1), 0),
        3 => (size, 0),
        4 => (0, size),
        _ => {
            let offset = random.below(size + 1);
            (offset, random.below(size - offset + 1))
        }
    }
}

/// Breaks a rule of refusal 18, or comes close.
fn spoil(random: &mut Random, words: &mut Vec<u64>, size: u64) {
    if random.once_in(4) || words.is_empty() {
        for _ in 0..1 + random.below(PART as u64 - 1) {
            words.push(random.edge());
        }
        return;
    }
    let at = PART * random.below((words.len() / PART) as u64) as usize;
    let (offset, length) = match random.below(9) {
        0 => (1, u64::MAX),
        1 => (u64::MAX, u64::MAX),
        2 => (0, u64::MAX - 1),
        3 => (size + 1, 0),
        4 => (u64::MAX, 0),
        5 => (u64::MAX, 1),
        6 => {
            let offset = random.below(size + 1);
            (offset, size - offset + 1)
        }
        7 => (
            random.below(size + 1),
            0u64.wrapping_sub(random.below(size + 1)),
        ),
        _ => (random.edge(), random.edge()),
    };
    words[at] = offset;
    words[at + 1] = length;
}

/// Parts at the largest size that a packet may carry.
fn large(random: &mut Random) -> Table {
    let size = LARGEST + random.below(2);
    let mut pairs = Vec::new();
    for _ in 0..random.small(4) {
        pairs.extend_from_slice(&[random.below(100), random.below(100)]);
    }
    pairs.extend_from_slice(&match random.below(4) {
        0 => [0, LARGEST],
        1 => [1, LARGEST],
        2 => [0, LARGEST + 1],
        _ => [0, size],
    });
    Table {
        area: format!("z{size}"),
        words: part_table(&pairs),
    }
}

/// The bytes that a packet over this table has, where the table keeps its rules.
fn measure(kind: u64, words: &[u64]) -> u64 {
    if kind != 0 && words.is_empty() {
        return 36;
    }
    let lengths = words
        .chunks_exact(PART)
        .map(|entry| if entry[1] == u64::MAX { 0 } else { entry[1] });
    let parts = lengths.fold(0, u64::saturating_add);
    parts.saturating_add(44 + 12 * (words.len() / PART) as u64)
}

fn head(random: &mut Random) -> (u64, String) {
    let kind = *random.pick(&[0, 0, 0, 1, 2]);
    (
        kind,
        format!("{kind} {} {}", random.flags(), hex(&random.id())),
    )
}

pub fn write(random: &mut Random) -> String {
    let table = table(random);
    let (kind, head) = head(random);
    let size = measure(kind, &table.words);
    // A buffer that a driver can hold.
    let room = match random.below(10) {
        0 => 0,
        1 => size.saturating_sub(1).min(1 << 20),
        2 => random.below(size.min(1 << 12)),
        3 => random.around_one_of(&[36, 44]),
        4 if size < 1 << 20 => size + 1,
        5 if size < 1 << 20 => size + random.below(50),
        _ => size.min(1 << 20),
    };
    format!(
        "packet-write {head} {room} {} {}",
        table.area,
        words(&table.words)
    )
}

pub fn size(random: &mut Random) -> String {
    let table = table(random);
    format!(
        "packet-size {} {} {}",
        head(random).1,
        table.area,
        words(&table.words)
    )
}

pub fn validate(random: &mut Random) -> String {
    let table = table(random);
    format!(
        "validate {} {} {}",
        head(random).1,
        table.area,
        words(&table.words)
    )
}

pub fn write_live(random: &mut Random) -> String {
    live(write(random))
}

pub fn size_live(random: &mut Random) -> String {
    live(size(random))
}

pub fn validate_live(random: &mut Random) -> String {
    live(validate(random))
}

pub fn part(random: &mut Random) -> String {
    let table = loop {
        let table = table(random);
        if table.area.len() < 4000 && !table.area.starts_with("z107") {
            break table;
        }
    };
    let count = (table.words.len() / PART) as u64;
    let index = match random.below(8) {
        0 => random.edge(),
        1 => count,
        2 => count + 1,
        _ => random.below(count),
    };
    format!("part {index} {} {}", table.area, words(&table.words))
}
