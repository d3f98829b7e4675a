//! Error messages: grown from the three messages' fields, whole, damaged and cut; tables of errors and
//! attributes to write, whole and broken. The fixed ones are every short input over the bytes that
//! matter, each field number with each type, depths, varints, every cut and flipped bit of one message,
//! and tables around each rule.

use crate::random::Random;
use crate::text::{hex_or_dash, words};
use crate::varint;

/// The words of an error's entry in a table, and of an attribute's.
const ERROR_WORDS: usize = 4;
const ATTRIBUTE_WORDS: usize = 5;

/// Tags of known fields with their type and with another, of unknown fields, and what begins none; a
/// length or two.
const MARKS: [u8; 12] = [
    0x00, 0x01, 0x02, 0x03, 0x08, 0x0a, 0x0b, 0x12, 0x1a, 0x22, 0x2d, 0x80,
];

/// Wire types that are skipped, and those that are refused.
const SKIPPED: [u64; 4] = [0, 1, 2, 5];
const REFUSED: [u64; 4] = [3, 4, 6, 7];

const DEEPEST: u64 = 16;

/// Which of the three messages a field stands in.
#[derive(Clone, Copy)]
enum Message {
    Error,
    Dictionary,
    Attribute,
}

impl Message {
    /// How many fields it knows.
    fn known(self) -> u64 {
        match self {
            Message::Error => 4,
            Message::Dictionary => 1,
            Message::Attribute => 2,
        }
    }
}

// Reading.

/// A message as it grows, with how many errors and attributes it has if nothing is wrong with it.
#[derive(Default)]
struct Grown {
    errors: u64,
    attributes: u64,
}

pub fn read(random: &mut Random) -> String {
    let mut grown = Grown::default();
    let mut bytes = match random.below(8) {
        0 => soup(random),
        1 => {
            let depth = DEEPEST - 2 + random.below(5);
            chain(random, depth, &mut grown)
        }
        _ => grown.error(random, 4),
    };
    random.spoil(&mut bytes, &MARKS);
    let errors = room(random, grown.errors);
    let attributes = room(random, grown.attributes);
    read_line(errors, attributes, &bytes)
}

/// Mostly enough, seldom short or anything.
fn room(random: &mut Random, count: u64) -> u64 {
    match random.below(8) {
        0 => random.small(8),
        1 => random.edge().min(u64::MAX - 1),
        2 => count.saturating_sub(1),
        3 => count,
        _ => count + random.below(4),
    }
}

fn read_line(errors: u64, attributes: u64, bytes: &[u8]) -> String {
    format!("error-read {errors} {attributes} {}", hex_or_dash(bytes))
}

/// Tags, varints and bytes in any order.
fn soup(random: &mut Random) -> Vec<u8> {
    let mut bytes = Vec::new();
    for _ in 0..random.small(16) {
        match random.below(4) {
            0 => {
                let number = random.word();
                varint::put(random, number, &mut bytes);
            }
            1 => {
                let length = random.small(6) as usize;
                bytes.extend(random.content(length));
            }
            _ => bytes.push(*random.pick(&MARKS)),
        }
    }
    bytes
}

/// Errors within one another, so many levels, seldom with a field before or behind the next one.
fn chain(random: &mut Random, levels: u64, grown: &mut Grown) -> Vec<u8> {
    let mut bytes = Vec::new();
    for level in 0..levels {
        grown.errors += 1;
        let mut outer = Vec::new();
        if random.once_in(8) {
            outer.extend(own_field(random));
        }
        if level > 0 {
            delimited(random, 4, &bytes, &mut outer);
        }
        if random.once_in(8) {
            outer.extend(own_field(random));
        }
        bytes = outer;
    }
    bytes
}

/// A code, a text or an unknown field.
fn own_field(random: &mut Random) -> Vec<u8> {
    let mut bytes = Vec::new();
    match random.below(4) {
        0 => code(random, &mut bytes),
        1 => text(random, 2, &mut bytes),
        _ => unknown(random, Message::Error, &mut bytes),
    }
    bytes
}

impl Grown {
    fn error(&mut self, random: &mut Random, depth: u64) -> Vec<u8> {
        self.errors += 1;
        let mut bytes = Vec::new();
        for _ in 0..random.small(8) {
            match random.below(12) {
                0 | 1 => code(random, &mut bytes),
                2 | 3 => text(random, 2, &mut bytes),
                4..=6 => {
                    let dictionary = self.dictionary(random);
                    delimited(random, 3, &dictionary, &mut bytes);
                }
                7..=9 if depth > 0 => {
                    let inner = self.error(random, depth - 1);
                    delimited(random, 4, &inner, &mut bytes);
                }
                _ => unknown(random, Message::Error, &mut bytes),
            }
        }
        bytes
    }

    fn dictionary(&mut self, random: &mut Random) -> Vec<u8> {
        let mut bytes = Vec::new();
        for _ in 0..random.small(5) {
            if random.once_in(8) {
                unknown(random, Message::Dictionary, &mut bytes);
                continue;
            }
            self.attributes += 1;
            let mut attribute = Vec::new();
            for _ in 0..random.small(5) {
                match random.below(6) {
                    0 => unknown(random, Message::Attribute, &mut attribute),
                    1 | 2 => text(random, 2, &mut attribute),
                    _ => text(random, 1, &mut attribute),
                }
            }
            delimited(random, 1, &attribute, &mut bytes);
        }
        bytes
    }
}

fn code(random: &mut Random, bytes: &mut Vec<u8>) {
    tag(random, 1, 0, bytes);
    let number = match random.below(4) {
        0 => random.word(),
        1 => (random.word32() as i32 as i64) as u64,
        _ => random.below(1000),
    };
    varint::put(random, number, bytes);
}

/// A field of bytes.
fn text(random: &mut Random, number: u64, bytes: &mut Vec<u8>) {
    let length = match random.below(12) {
        0 => random.below(300),
        _ => random.small(12),
    };
    let content = random.content(length as usize);
    delimited(random, number, &content, bytes);
}

/// A length-delimited field; seldom its length is wrong.
fn delimited(random: &mut Random, number: u64, content: &[u8], bytes: &mut Vec<u8>) {
    tag(random, number, 2, bytes);
    let length = content.len() as u64;
    let told = match random.below(150) {
        0 => random.word(),
        1 => length + 1,
        2 => length.saturating_sub(1),
        _ => length,
    };
    varint::put(random, told, bytes);
    bytes.extend_from_slice(content);
}

/// A tag; seldom of another type, of field 0, or above 2^32.
fn tag(random: &mut Random, number: u64, kind: u64, bytes: &mut Vec<u8>) {
    let tag = match random.below(200) {
        0 => 8 * number + random.below(8),
        1 => kind,
        2 => 8 * number + kind + (1 << 32),
        _ => 8 * number + kind,
    };
    varint::put(random, tag, bytes);
}

/// A field that the message does not know, of a type that is skipped; seldom of another.
fn unknown(random: &mut Random, message: Message, bytes: &mut Vec<u8>) {
    let number = match random.below(4) {
        0 => *random.pick(&[15, 16, 2047, 2048, 19_000, 19_999, (1 << 29) - 1]),
        _ => message.known() + 1 + random.below(3),
    };
    let kind = match random.once_in(30) {
        true => *random.pick(&REFUSED),
        false => *random.pick(&SKIPPED),
    };
    match kind {
        2 => {
            let length = random.small(12) as usize;
            let content = random.content(length);
            delimited(random, number, &content, bytes);
        }
        kind => {
            tag(random, number, kind, bytes);
            let payload = payload(random, kind);
            bytes.extend(payload);
        }
    }
}

/// What stands behind a tag of that type.
fn payload(random: &mut Random, kind: u64) -> Vec<u8> {
    let mut bytes = Vec::new();
    match kind {
        0 => {
            let number = random.word();
            varint::put(random, number, &mut bytes);
        }
        1 => bytes.extend(random.content(8)),
        2 => bytes.extend([2, b'h', b'i']),
        5 => bytes.extend(random.content(4)),
        _ => {}
    }
    bytes
}

// Writing.

/// Two tables over an area.
struct Tables {
    area: Vec<u8>,
    errors: Vec<u64>,
    attributes: Vec<u64>,
}

pub fn write(random: &mut Random) -> String {
    let tables = Tables::drawn(random);
    let size = tables.size();
    let room = match random.below(6) {
        0 => random.small(64),
        1 => random.edge(),
        2 => size + random.below(20),
        3 => size.saturating_sub(1),
        _ => size,
    };
    tables.write_line(room)
}

pub fn size(random: &mut Random) -> String {
    Tables::drawn(random).size_line()
}

impl Tables {
    fn drawn(random: &mut Random) -> Self {
        let length = match random.below(12) {
            0 => 100 + random.below(300),
            _ => random.small(40),
        };
        let mut tables = Tables {
            area: random.content(length as usize),
            errors: Vec::new(),
            attributes: Vec::new(),
        };
        let count = 1 + random.small(8);
        let mut depth = 1;
        for _ in 0..count {
            let code = match random.below(3) {
                0 => u64::from(random.word32()),
                _ => random.below(1000),
            };
            let [offset, length] = tables.stretch(random);
            tables.errors.extend([code, depth, offset, length]);
            depth = match random.below(3) {
                0 => depth + 1,
                _ => 2 + random.below(depth),
            }
            .min(DEEPEST);
        }
        let rows = random.small(8);
        let mut indexes: Vec<u64> = (0..rows).map(|_| random.below(count)).collect();
        if random.below(3) > 0 {
            indexes.sort_unstable();
        }
        for index in indexes {
            let key = tables.stretch(random);
            let value = tables.stretch(random);
            tables.attributes.push(index);
            tables.attributes.extend(key);
            tables.attributes.extend(value);
        }
        for _ in 0..match random.below(6) {
            0 => 1,
            1 => 2,
            _ => 0,
        } {
            tables.spoil(random);
        }
        tables
    }

    /// A stretch of the area, often empty or at its end.
    fn stretch(&self, random: &mut Random) -> [u64; 2] {
        let size = self.area.len() as u64;
        let offset = random.below(size + 1);
        match random.below(5) {
            0 => [offset, 0],
            1 => [offset, size - offset],
            2 => [0, size],
            _ => [offset, random.small(size - offset + 1)],
        }
    }

    /// Breaks one of the tables, or moves a word to where it may still be good.
    fn spoil(&mut self, random: &mut Random) {
        let size = self.area.len() as u64;
        let count = self.errors.len() as u64 / 4;
        let table = match random.below(3) {
            0 => &mut self.attributes,
            _ => &mut self.errors,
        };
        let at = random.below(table.len() as u64) as usize;
        match random.below(8) {
            0 => table.push(random.below(3)),
            1 => {
                table.pop();
            }
            2 => table.clear(),
            3 => {
                let whole = table.len().min(4);
                table.extend_from_within(..whole);
            }
            _ => {
                let word = match random.below(4) {
                    0 => random.edge(),
                    1 => random.around_one_of(&[size, count, DEEPEST, 1 << 32, 1, 2]),
                    2 => random.word(),
                    _ => random.small(20),
                };
                if let Some(old) = table.get_mut(at) {
                    *old = word;
                }
            }
        }
    }

    /// The bytes that good tables take; for others any number.
    fn size(&self) -> u64 {
        let fielded = |length: u64| {
            let head = 1 + varint::shortest(length) as u64;
            length.saturating_add(head)
        };
        let mut sums = [0u64; DEEPEST as usize + 3];
        for (index, error) in self.errors.chunks_exact(ERROR_WORDS).enumerate().rev() {
            let rows = self.attributes.chunks_exact(ATTRIBUTE_WORDS);
            let entries = rows
                .filter(|row| row[0] == index as u64)
                .map(|row| fielded(fielded(row[2]).saturating_add(fielded(row[4]))))
                .fold(0, u64::saturating_add);
            let depth = error[1].min(DEEPEST) as usize;
            let mut size = 1 + varint::shortest(error[0]) as u64;
            size = size.saturating_add(fielded(error[3]));
            if entries > 0 {
                size = size.saturating_add(fielded(entries));
            }
            size = size.saturating_add(std::mem::take(&mut sums[depth + 1]));
            if index == 0 {
                return size;
            }
            sums[depth] = sums[depth].saturating_add(fielded(size));
        }
        0
    }

    fn write_line(&self, room: u64) -> String {
        let (errors, attributes) = (words(&self.errors), words(&self.attributes));
        let area = hex_or_dash(&self.area);
        format!("error-write {room} {area} {errors} {attributes}")
    }

    fn size_line(&self) -> String {
        let (errors, attributes) = (words(&self.errors), words(&self.attributes));
        format!(
            "error-size {} {errors} {attributes}",
            hex_or_dash(&self.area)
        )
    }

    /// Into no room, into one byte too few, into just enough and into more; and the size.
    fn lines(&self, lines: &mut Vec<String>) {
        let size = self.size();
        lines.push(self.size_line());
        for room in [0, size.saturating_sub(1), size, size.saturating_add(9)] {
            lines.push(self.write_line(room));
        }
    }
}

// What every run begins with.

/// Every input of so many bytes over the bytes that matter, the shorter ones first.
pub fn short(most: u32) -> Vec<String> {
    let count = MARKS.len();
    (0..=most)
        .flat_map(|length| (0..count.pow(length)).map(move |index| (length, index)))
        .map(|(length, index)| {
            let digit = |place| MARKS[index / count.pow(place) % count];
            let bytes: Vec<u8> = (0..length).map(digit).collect();
            read_line(4, index as u64 % 3, &bytes)
        })
        .collect()
}

pub fn corners(lines: &mut Vec<String>) {
    lines.extend(short(3));
    types(lines);
    depths(lines);
    varints(lines);
    rooms(lines);
    damaged(lines);
    depth_tables(lines);
    bounds(lines);
    orders(lines);
    lengths(lines);
}

/// The content as a length-delimited field.
fn field(number: u64, content: &[u8]) -> Vec<u8> {
    let length = content.len() as u64;
    [
        varint::of(8 * number + 2, varint::shortest(8 * number + 2)),
        varint::of(length, varint::shortest(length)),
        content.to_vec(),
    ]
    .concat()
}

/// The fields of one of the three messages as a whole TError.
fn inside(message: Message, fields: &[u8]) -> Vec<u8> {
    match message {
        Message::Error => fields.to_vec(),
        Message::Dictionary => field(3, fields),
        Message::Attribute => field(3, &field(1, fields)),
    }
}

const MESSAGES: [Message; 3] = [Message::Error, Message::Dictionary, Message::Attribute];

/// Each field number with each type in each message, between two good fields and alone.
fn types(lines: &mut Vec<String>) {
    for message in MESSAGES {
        for number in [0, 1, 2, 3, 4, 5, 6, 15, 16, 19_000, (1 << 29) - 1, 1 << 29] {
            for kind in 0..8 {
                let tag = 8 * number + kind;
                let least = varint::shortest(tag);
                // Overlong for field 0 and one that is known.
                for size in least..=least + usize::from(number < 2) {
                    let head = varint::of(tag, size);
                    for payload in [&b""[..], b"\0", b"\x05", b"\x02hi", b"1234", b"12345678"] {
                        let this = [&head[..], payload].concat();
                        lines.push(read_line(9, 9, &inside(message, &this)));
                    }
                    let between = [&field(1, b"\x0a\0"), &head[..], b"\0\0\0\0\0\0\0\0"].concat();
                    lines.push(read_line(9, 9, &inside(message, &between)));
                }
            }
        }
    }
}

/// 14 to 18 levels, the innermost empty or not, cut, with a length too large, with siblings.
fn depths(lines: &mut Vec<String>) {
    for levels in 14..=18 {
        for inner in [
            &b""[..],
            b"\x08\x07",
            b"\x12\x01x",
            b"\x1a\x02\x0a\0",
            b"\x22",
            b"\x22\x01",
            b"\x22\0",
            b"\x22\0\x22\0",
            b"\x20\0",
            b"\x2a\0\x22\0",
            b"\x0b",
        ] {
            let bytes = (1..levels).fold(inner.to_vec(), |bytes, _| field(4, &bytes));
            lines.push(read_line(20, 2, &bytes));
            lines.push(read_line(20, 2, &bytes[..bytes.len().saturating_sub(1)]));
            lines.push(read_line(levels - 1, 0, &bytes));
            let later = [&bytes[..], b"\x22\x05"].concat();
            lines.push(read_line(20, 2, &later));
            let twice = [field(4, &bytes), field(4, b"\x1a\0")].concat();
            lines.push(read_line(40, 2, &twice));
        }
    }
}

/// Tags, codes, lengths and skipped numbers in one to eleven bytes, around the widths of their types.
fn varints(lines: &mut Vec<String>) {
    let top = 1u64 << 32;
    let numbers = [
        0,
        1,
        2,
        127,
        128,
        top - 1,
        top,
        top + 5,
        u64::MAX - 1,
        u64::MAX,
    ];
    for number in numbers {
        for size in varint::shortest(number)..=11 {
            let told = varint::of(number, size);
            for tag in [0x08, 0x28, 0x12, 0x1a, 0x22, 0x2a] {
                for behind in [&b""[..], b"a", b"\x0a\0"] {
                    lines.push(read_line(3, 3, &[&[tag], &told[..], behind].concat()));
                }
            }
        }
    }
    for tag in [
        8,
        0x12,
        0x1a,
        0x22,
        0x28,
        0x2a,
        0x29,
        0x2d,
        0,
        3,
        top - 8,
        top - 7,
        top,
        top + 8,
    ] {
        for size in varint::shortest(tag)..=11 {
            for behind in [&b""[..], b"\0", b"\0\0\0\0", b"\0\0\0\0\0\0\0\0"] {
                let bytes = [&varint::of(tag, size)[..], behind].concat();
                lines.push(read_line(3, 3, &bytes));
            }
        }
    }
    for tag in [0x08, 0x28, 0x12] {
        for size in 0..=11 {
            for last in [0x00, 0x01, 0x02, 0x7e, 0x7f, 0x80, 0xff] {
                for fill in [0x80, 0xff] {
                    let bytes = [&[tag], &[fill].repeat(size)[..], &[last]].concat();
                    lines.push(read_line(1, 0, &bytes));
                }
            }
        }
    }
}

/// Up to three errors and attributes into every room around them, and messages whose attributes stand
/// behind inner errors.
fn rooms(lines: &mut Vec<String>) {
    for errors in 0..=3 {
        for attributes in 0..=3 {
            let bytes = [
                field(4, &field(3, &b"\x0a\0".repeat(attributes))),
                b"\x22\0".repeat(errors),
                field(3, &b"\x0a\0".repeat(attributes)),
            ]
            .concat();
            for room in 0..=6 {
                for other in 0..=6 {
                    lines.push(read_line(room, other, &bytes));
                }
            }
        }
    }
}

/// Every cut and every flipped bit of one message, and each of the readings' examples.
fn damaged(lines: &mut Vec<String>) {
    let attribute = |key: &[u8], value: &[u8]| field(1, &[field(1, key), field(2, value)].concat());
    let whole = [
        b"\x08\xff\xff\xff\xff\x0f".to_vec(),
        field(2, b"outer"),
        field(3, &[attribute(b"a", b"#"), attribute(b"", b"")].concat()),
        field(
            4,
            &[field(3, &attribute(b"b", b"\x05")), b"\x2d1234".to_vec()].concat(),
        ),
        b"\x29\x31\x32\x33\x34\x35\x36\x37\x38".to_vec(),
        field(4, &field(4, &field(2, b"inner"))),
        field(
            3,
            &field(
                1,
                &[field(2, b"v"), field(1, b"k"), field(3, b"?")].concat(),
            ),
        ),
        b"\x08\x05".to_vec(),
    ]
    .concat();
    for keep in 0..=whole.len() {
        lines.push(read_line(9, 9, &whole[..keep]));
    }
    for bit in 0..8 * whole.len() {
        let mut bytes = whole.clone();
        bytes[bit / 8] ^= 1 << (bit % 8);
        lines.push(read_line(9, 9, &bytes));
    }
    for example in [
        &b""[..],
        b"\x22\x03\x12\x02ab",
        b"\x80\x80\x80\x80\x10",
        b"\xf8\xff\xff\xff\x0f\0",
        b"\x88\x80\x80\x80\x10\x05",
        b"\x80\0",
        b"\x12\x01a\x12\0",
        b"\x22\x04\x1a\x02\x0a\0\x1a\x02\x0a\0",
        b"\x08\xff\xff\xff\xff\xff\xff\xff\xff\xff\x01",
        b"\x08\x85\x80\x80\x80\x10",
    ] {
        lines.push(read_line(9, 9, example));
    }
}

/// Tables of errors with these depths, without texts.
fn of_depths(depths: &[u64]) -> Tables {
    Tables {
        area: Vec::new(),
        errors: depths
            .iter()
            .flat_map(|&depth| [depth, depth, 0, 0])
            .collect(),
        attributes: Vec::new(),
    }
}

/// Every list of up to four depths from 0 to 4, and those around the deepest.
fn depth_tables(lines: &mut Vec<String>) {
    for count in 0..=4u32 {
        for index in 0..5u64.pow(count) {
            let depths: Vec<u64> = (0..count)
                .map(|place| index / 5u64.pow(place) % 5)
                .collect();
            let tables = of_depths(&depths);
            lines.push(tables.write_line(tables.size()));
        }
    }
    for deepest in DEEPEST - 1..=DEEPEST + 2 {
        let mut depths: Vec<u64> = (1..=deepest).collect();
        of_depths(&depths).lines(lines);
        depths.extend([deepest, 2, 3, deepest]);
        of_depths(&depths).lines(lines);
    }
}

/// Codes, places, lengths and indexes at and beyond their bounds, one at a time and two at once.
fn bounds(lines: &mut Vec<String>) {
    let errors = [7, 1, 0, 2, 8, 2, 2, 1];
    let attributes = [0, 0, 1, 1, 2, 1, 3, 0, 0, 3];
    let around = [
        0,
        1,
        2,
        3,
        4,
        (1 << 32) - 1,
        1 << 32,
        u64::MAX - 1,
        u64::MAX,
    ];
    let tables = |errors: &[u64], attributes: &[u64]| Tables {
        area: b"abc".to_vec(),
        errors: errors.to_vec(),
        attributes: attributes.to_vec(),
    };
    tables(&errors, &attributes).lines(lines);
    for word in around {
        for at in 0..errors.len() {
            let mut changed = errors;
            changed[at] = word;
            let tables = tables(&changed, &attributes);
            lines.push(tables.write_line(tables.size()));
            lines.push(tables.size_line());
        }
        for at in 0..attributes.len() {
            let mut changed = attributes;
            changed[at] = word;
            let tables = tables(&errors, &changed);
            lines.push(tables.write_line(tables.size()));
            lines.push(tables.size_line());
        }
    }
    // Words that are no whole entries, beside entries that are bad.
    for front in 0..=errors.len() {
        for back in 0..=attributes.len() {
            tables(&errors[..front], &attributes[..back]).lines(lines);
            let mut bad = errors;
            bad[1] = 9;
            lines.push(tables(&bad[..front], &attributes[..back]).write_line(99));
        }
    }
    // An offset and a length that wrap.
    for (offset, length) in [
        (u64::MAX, 1),
        (1, u64::MAX),
        (1 << 63, 1 << 63),
        (3, 0),
        (4, 0),
        (2, 2),
    ] {
        lines.push(tables(&[1, 1, offset, length], &[]).write_line(99));
        lines.push(tables(&[1, 1, 0, 0], &[0, offset, length, 0, 0]).write_line(99));
        lines.push(tables(&[1, 1, 0, 0], &[0, 0, 0, offset, length]).write_line(99));
    }
}

/// Three errors with their attributes in every order of up to four rows.
fn orders(lines: &mut Vec<String>) {
    for count in 0..=4u32 {
        for index in 0..3u64.pow(count) {
            let rows = (0..count).map(|place| index / 3u64.pow(place) % 3);
            let rows = rows
                .zip(0..)
                .flat_map(|(error, key)| [error, key, 1, 0, key]);
            let tables = Tables {
                area: b"wxyz".to_vec(),
                errors: vec![1, 1, 0, 1, 2, 2, 1, 1, 3, 2, 2, 1],
                attributes: rows.collect(),
            };
            tables.lines(lines);
        }
    }
}

/// Texts, keys and values whose lengths, and those of what encloses them, are at each width of a varint.
fn lengths(lines: &mut Vec<String>) {
    let near = |width: u64| width.saturating_sub(45)..width + 3;
    for length in near(1 << 7).chain(near(1 << 14)) {
        let area = Tables {
            area: vec![0; length as usize],
            errors: vec![5, 1, 0, 0, 5, 2, 0, 0],
            attributes: vec![1, 0, 0, 0, length],
        };
        lines.push(area.write_line(area.size()));
        let texts = Tables {
            errors: vec![5, 1, 0, length, 5, 2, 0, length, 5, 3, 0, 0],
            attributes: Vec::new(),
            ..area
        };
        lines.push(texts.write_line(texts.size()));
        let keys = Tables {
            attributes: vec![2, 0, length, 0, 0, 2, 0, 0, 0, length],
            ..texts
        };
        lines.push(keys.size_line());
    }
    // An area that many entries name: sizes far above its own.
    for (size, count) in [(1 << 21, 3), ((1 << 21) - 7, 3), (1 << 20, 300)] {
        let errors: Vec<u64> = (0..count)
            .flat_map(|index: u64| [index, 1 + index.min(15), 0, size])
            .collect();
        let rows: Vec<u64> = (0..count)
            .flat_map(|index| [index, 0, size, 1, size - 1])
            .collect();
        lines.push(format!(
            "error-size z{size} {} {}",
            words(&errors),
            words(&rows)
        ));
        lines.push(format!(
            "error-write 99 z{size} {} {}",
            words(&errors),
            words(&rows)
        ));
    }
}
