//! YSON: nodes grown from the grammar, whole, damaged and cut; tokens in any order; brackets around the
//! limit of depth. The fixed ones are every short input over the bytes that matter, depths, varints,
//! separators, and every cut and flipped bit of one node.

use crate::random::Random;
use crate::text::hex_or_dash;
use crate::varint;

/// A byte that begins each kind of token, but for the scalars of one byte; and 00, which begins none.
const MARKS: [u8; 12] = *b"\x01\x02#;=[]{}<>\x00";

/// The brackets, with what closes each.
const BRACKETS: [(u8, u8); 3] = [(b'[', b']'), (b'{', b'}'), (b'<', b'>')];

pub fn case(random: &mut Random) -> String {
    let mut bytes = Vec::new();
    let items = match random.below(8) {
        0 => {
            for _ in 0..random.small(16) {
                token(random, &mut bytes);
            }
            0
        }
        1 => {
            bytes = nested(random);
            0
        }
        2 => {
            node(random, 4, &mut bytes);
            0
        }
        _ => {
            if random.once_in(5) {
                pairs(random, 2, BRACKETS[2], &mut bytes);
            }
            pairs(random, 3, BRACKETS[1], &mut bytes)
        }
    };
    random.spoil(&mut bytes, &MARKS);
    let room = match random.below(4) {
        0 => random.small(8),
        1 => random.edge(),
        _ => random.around(items).min(u64::MAX - 1),
    };
    line(room, &bytes)
}

fn line(room: u64, bytes: &[u8]) -> String {
    format!("yson {room} {}", hex_or_dash(bytes))
}

fn token(random: &mut Random, bytes: &mut Vec<u8>) {
    match random.below(3) {
        0 => scalar(random, bytes),
        _ => bytes.push(*random.pick(&MARKS)),
    }
}

/// A node with at most so many brackets open in it.
fn node(random: &mut Random, depth: u64, bytes: &mut Vec<u8>) {
    if depth > 0 && random.once_in(5) {
        pairs(random, depth - 1, BRACKETS[2], bytes);
    }
    match random.below(5) {
        0 if depth > 0 => {
            bytes.push(b'[');
            let count = random.small(5);
            for index in 0..count {
                node(random, depth - 1, bytes);
                separator(random, index + 1 == count, bytes);
            }
            bytes.push(b']');
        }
        1 if depth > 0 => {
            pairs(random, depth - 1, BRACKETS[1], bytes);
        }
        _ => scalar(random, bytes),
    }
}

/// A map or attributes: how many pairs it has.
fn pairs(random: &mut Random, depth: u64, (open, close): (u8, u8), bytes: &mut Vec<u8>) -> u64 {
    bytes.push(open);
    let count = random.small(6);
    for index in 0..count {
        string(random, bytes);
        if !random.once_in(60) {
            bytes.push(b'=');
        }
        node(random, depth, bytes);
        separator(random, index + 1 == count, bytes);
    }
    bytes.push(close);
    count
}

/// Between two items one, behind the last one or none; seldom otherwise.
fn separator(random: &mut Random, last: bool, bytes: &mut Vec<u8>) {
    let count = match random.below(60) {
        0 => 0,
        1 => 2,
        _ if last => random.below(2) as usize,
        _ => 1,
    };
    bytes.extend([b';'].repeat(count));
}

fn scalar(random: &mut Random, bytes: &mut Vec<u8>) {
    match random.below(8) {
        0 => {
            bytes.push(3);
            let cut = u64::from(random.once_in(20));
            bytes.extend(random.content((8 - cut) as usize));
        }
        1 => bytes.push(*random.pick(&[4, 5, b'#'])),
        2 | 3 => {
            bytes.push(*random.pick(&[2, 6]));
            let number = random.word();
            varint::put(random, number, bytes);
        }
        4 if random.once_in(8) => bytes.push(random.byte()),
        _ => string(random, bytes),
    }
}

fn string(random: &mut Random, bytes: &mut Vec<u8>) {
    let length = match random.below(12) {
        0 => random.below(300),
        _ => random.small(12),
    };
    bytes.push(1);
    let told = match random.below(60) {
        0 => 2 * length + 1,
        1 => 2 * length + (1 << 32),
        2 => random.word(),
        3 => 2 * length + 2,
        _ => 2 * length,
    };
    varint::put(random, told, bytes);
    bytes.extend(random.content(length as usize));
}

/// Brackets of all kinds within one another, around the limit.
fn nested(random: &mut Random) -> Vec<u8> {
    let depth = 60 + random.below(8) as usize;
    let kinds: Vec<usize> = (0..depth).map(|_| random.below(3) as usize).collect();
    around(&kinds, *random.pick(&[b"#", b"\x05", b";"]))
}

/// A node within brackets of these kinds, the first one outermost.
fn around(kinds: &[usize], inner: &[u8]) -> Vec<u8> {
    let mut bytes = opened(kinds);
    bytes.extend(inner);
    for &kind in kinds.iter().rev() {
        bytes.push(BRACKETS[kind].1);
        if kind == 2 {
            bytes.push(b'#');
        }
    }
    bytes
}

/// These brackets, each within the one before, and a key in front of each value.
fn opened(kinds: &[usize]) -> Vec<u8> {
    let mut bytes = Vec::new();
    for &kind in kinds {
        bytes.push(BRACKETS[kind].0);
        if kind > 0 {
            bytes.extend(b"\x01\x02k=");
        }
    }
    bytes
}

/// Every input of so many bytes over the bytes that matter, the shorter ones first.
pub fn short(most: u32) -> Vec<String> {
    let count = MARKS.len();
    (0..=most)
        .flat_map(|length| (0..count.pow(length)).map(move |index| (length, index)))
        .map(|(length, index)| {
            let digit = |place| MARKS[index / count.pow(place) % count];
            let bytes: Vec<u8> = (0..length).map(digit).collect();
            line(index as u64 % 2, &bytes)
        })
        .collect()
}

/// What every run begins with.
pub fn corners(lines: &mut Vec<String>) {
    lines.extend(short(3));
    depths(lines);
    varints(lines);
    separators(lines);
    maps(lines);
}

/// 62 to 66 brackets, of one kind and of all, whole and cut, with a bracket that may not stand there.
fn depths(lines: &mut Vec<String>) {
    for depth in 62..=66 {
        let mixed: Vec<usize> = (0..depth).map(|index| index % 3).collect();
        for kinds in [vec![0; depth], vec![1; depth], vec![2; depth], mixed] {
            let open = opened(&kinds);
            for inner in [
                "#", "[]", "{}", "<>#", "<>", "<>[]", "{{", "[;", ";", "", " ",
            ] {
                lines.push(line(9, &around(&kinds, inner.as_bytes())));
                lines.push(line(0, &[&open[..], inner.as_bytes()].concat()));
            }
        }
        // Closed ones no longer count.
        let beside = [b"[".repeat(depth - 1), b"<>[];".repeat(3)].concat();
        lines.push(line(0, &[beside, b"]".repeat(depth - 1)].concat()));
        for before in [62, 63, 64] {
            let bytes = [b"[".repeat(before), b"{".repeat(depth - 60)].concat();
            lines.push(line(0, &bytes));
        }
    }
}

/// Numbers and lengths in one to eleven bytes, around the widths of their types.
fn varints(lines: &mut Vec<String>) {
    let top = 1u64 << 32;
    for number in [
        0,
        1,
        2,
        3,
        4,
        127,
        128,
        top - 2,
        top - 1,
        top,
        top + 2,
        u64::MAX - 1,
        u64::MAX,
    ] {
        for size in varint::shortest(number)..=11 {
            for mark in [1, 2, 6] {
                for behind in ["", "a", "ab", "abc"] {
                    let length = varint::of(number, size);
                    let bytes = [&[mark], &length[..], behind.as_bytes()].concat();
                    lines.push(line(0, &bytes));
                }
            }
        }
    }
    for mark in [1, 2, 6] {
        for size in 0..=11 {
            for last in [0x00, 0x01, 0x02, 0x7e, 0x7f, 0x80, 0xff] {
                for fill in [0x80, 0xff] {
                    let bytes = [&[mark], &[fill].repeat(size)[..], &[last]].concat();
                    lines.push(line(0, &bytes));
                }
            }
        }
    }
    for size in 0..=10 {
        lines.push(line(0, &[&[3], &[0xff].repeat(size)[..]].concat()));
    }
}

/// Separators and white space at each place where they may and may not stand.
fn separators(lines: &mut Vec<String>) {
    let (a, b) = ("\x01\x02a=#", "\x01\x02b=<>#");
    for (open, close) in [("[", "]"), ("{", "}"), ("<", ">#"), ("[", "}"), ("{", ">")] {
        let (a, b) = if open == "[" { ("#", "<>#") } else { (a, b) };
        for inside in [
            String::from(";"),
            a.to_string(),
            format!("{a};"),
            format!("{a};;"),
            format!(";{a}"),
            format!("{a}{b}"),
            format!("{a};{b}"),
            format!("{a};{b};"),
            format!("{a};;{b}"),
            format!("{a};{b};;"),
            format!("{a}={b}"),
        ] {
            for behind in ["", ";", "#", " ", "\n"] {
                let text = format!("{open}{inside}{close}{behind}");
                lines.push(line(2, text.as_bytes()));
            }
        }
        let text = format!("{open}{a};{b};{close}");
        for at in 0..=text.len() {
            let (front, back) = text.split_at(at);
            for space in [" ", "\t", "\n", "\r", "\0"] {
                lines.push(line(2, format!("{front}{space}{back}").as_bytes()));
            }
        }
    }
}

/// Maps of up to four items into every room around it; every cut and every flipped bit of one node.
fn maps(lines: &mut Vec<String>) {
    for count in 0..=4 {
        for (front, back) in [("{", "}"), ("<\x01\x02x=#>{", "}"), ("[{", "}]")] {
            let bytes = [
                front.as_bytes(),
                &b"\x01\x00=#;".repeat(count),
                back.as_bytes(),
            ]
            .concat();
            for room in 0..=5 {
                lines.push(line(room, &bytes));
            }
        }
    }
    let whole = [
        &b"<\x01\x02x=\x06\x05>{\x01\x02a=<\x01\x02y=\x04>[#;\x02\x03;];"[..],
        b"\x01\x82\x00b={\x01\x00=\x0312345678};\x01\x02a=\x05;}",
    ]
    .concat();
    for keep in 0..=whole.len() {
        lines.push(line(3, &whole[..keep]));
    }
    for bit in 0..8 * whole.len() {
        let mut bytes = whole.clone();
        bytes[bit / 8] ^= 1 << (bit % 8);
        lines.push(line(3, &bytes));
    }
}
