//! Makes cases for the comparison: `cases SEED COUNT [KIND]`, the same ones for the same words.
//! Inputs are valid, damaged (with checksums sealed again or not) and cut, around every boundary of
//! document 01. A run over all kinds begins with the fixed cases of `corners`, and a long one with those
//! of `edges` too. Assumes nothing of either side that answers.

mod corners;
mod damaged;
mod edges;
mod errors;
mod pack;
mod packets;
mod random;
mod rowsets;
mod seal;
mod sums;
mod terms;
#[allow(dead_code)]
#[path = "../text.rs"]
mod text;
mod varint;
mod yson;

use std::io::{self, BufWriter, Write};
use std::process::exit;

use random::Random;
use text::{hex, hex_or_dash};

type Make = fn(&mut Random) -> String;

/// Each kind with its share of a run.
const KINDS: [(&str, u64, Make); 34] = [
    ("crc", 30, crc),
    ("checksum", 20, checksum),
    ("fold", 10, sums::fold),
    ("fold8", 20, sums::fold8),
    ("combine", 15, sums::combine),
    ("guid-print", 20, guid_print),
    ("guid-read", 80, guid_read),
    ("guid-parts", 15, guid_parts),
    ("packet", 250, packets::read),
    ("packet-default", 60, packets::read_default),
    ("packet-write", 90, packets::write),
    ("packet-size", 30, packets::size),
    ("validate", 25, packets::validate),
    ("packet-live", 80, packets::read_live),
    ("packet-default-live", 20, packets::read_default_live),
    ("packet-write-live", 30, packets::write_live),
    ("packet-size-live", 15, packets::size_live),
    ("validate-live", 15, packets::validate_live),
    ("part", 45, packets::part),
    ("contains", 10, contains),
    ("rowset", 140, rowsets::read),
    ("rowset-write", 80, rowsets::write),
    ("rowset-size", 30, rowsets::size),
    ("value", 60, rowsets::value),
    ("plain", 50, rowsets::plain),
    ("pack", 60, pack::case),
    ("yson", 60, yson::case),
    ("error-read", 60, errors::read),
    ("error-write", 40, errors::write),
    ("error-size", 20, errors::size),
    ("text-read", 90, terms::read),
    ("text-write", 50, terms::write),
    ("text-size", 20, terms::size),
    ("bad", 2, bad),
];

/// A run of so many cases or more begins with the edges too. Every run begins with the corners.
const WITH_EDGES: usize = 100_000;

fn main() {
    let words: Vec<String> = std::env::args().skip(1).collect();
    let (seed, count) = match words.as_slice() {
        [seed, count] | [seed, count, _] => match (seed.parse::<u64>(), count.parse::<usize>()) {
            (Ok(seed), Ok(count)) => (seed, count),
            _ => usage(),
        },
        _ => usage(),
    };
    let mut output = BufWriter::with_capacity(1 << 18, io::stdout().lock());
    let written = match words.get(2).map(String::as_str) {
        None => begun(seed, count, &mut output),
        Some("drawn") => drawn(seed, count, &mut output),
        Some("examples") => fixed(edges::examples(), count, &mut output),
        Some("edges") => fixed(edges::list(), count, &mut output),
        Some("damaged") => one_kind(seed, count, damaged::case, &mut output),
        Some("named") => one_kind(seed, count, damaged::named, &mut output),
        Some("corners") => fixed(corners::list(), count, &mut output),
        Some("huge") => edges::huge(count, &mut output),
        Some("yson-short") => fixed(yson::short(5), count, &mut output),
        Some("error-short") => fixed(errors::short(5), count, &mut output),
        Some("text-short") => fixed(terms::short(5), count, &mut output),
        Some(kind) => match KINDS.iter().find(|entry| entry.0 == kind) {
            Some(&(_, _, make)) => one_kind(seed, count, make, &mut output),
            None => usage(),
        },
    };
    if let Err(error) = written.and_then(|()| output.flush())
        && error.kind() != io::ErrorKind::BrokenPipe
    {
        eprintln!("cases: {error}");
        exit(1);
    }
}

fn usage() -> ! {
    let kinds: Vec<&str> = KINDS.iter().map(|entry| entry.0).collect();
    eprintln!(
        "usage: cases SEED COUNT [KIND], where KIND is examples, edges, corners, drawn, huge, yson-short, error-short, text-short, damaged, named or one of"
    );
    eprintln!("  {}", kinds.join(" "));
    exit(2);
}

/// Fixed cases, and then drawn ones.
fn begun(seed: u64, count: usize, output: &mut impl Write) -> io::Result<()> {
    let mut list = corners::list();
    if count >= WITH_EDGES {
        list.extend(edges::list());
    }
    let first = list.len().min(count);
    fixed(list, first, output)?;
    drawn(seed, count - first, output)
}

/// Cases of all kinds, each by its share.
fn drawn(seed: u64, count: usize, output: &mut impl Write) -> io::Result<()> {
    let total: u64 = KINDS.iter().map(|entry| entry.1).sum();
    let mut random = Random::new(seed);
    for _ in 0..count {
        let mut at = random.below(total);
        let mut make = KINDS[0].2;
        for &(_, share, this) in &KINDS {
            if at < share {
                make = this;
                break;
            }
            at -= share;
        }
        writeln!(output, "{}", make(&mut random))?;
    }
    Ok(())
}

fn one_kind(seed: u64, count: usize, make: Make, output: &mut impl Write) -> io::Result<()> {
    let mut random = Random::new(seed);
    for _ in 0..count {
        writeln!(output, "{}", make(&mut random))?;
    }
    Ok(())
}

fn fixed(list: Vec<String>, count: usize, output: &mut impl Write) -> io::Result<()> {
    for line in list.into_iter().take(count) {
        writeln!(output, "{line}")?;
    }
    Ok(())
}

// The kinds that need neither packets nor rowsets.

fn crc(random: &mut Random) -> String {
    let mut line = String::from("crc");
    for _ in 0..1 + random.small(6) {
        line.push(' ');
        line.push_str(&stretch(random));
    }
    line
}

fn checksum(random: &mut Random) -> String {
    format!("checksum {}", stretch(random))
}

fn stretch(random: &mut Random) -> String {
    match random.below(20) {
        0 => String::from("-"),
        1 => format!("z{}", random.below(300)),
        2 => {
            let length = 200 + random.below(2000) as usize;
            hex_or_dash(&random.content(length))
        }
        _ => {
            let length = random.small(40) as usize;
            hex_or_dash(&random.content(length))
        }
    }
}

fn guid_print(random: &mut Random) -> String {
    format!("guid-print {}", hex(&random.id()))
}

fn guid_parts(random: &mut Random) -> String {
    format!("guid-parts {}", hex(&random.id()))
}

fn contains(random: &mut Random) -> String {
    let flags = random.flags();
    let other = match random.below(3) {
        0 => flags & random.flags(),
        1 => flags ^ (1 << random.below(16)),
        _ => random.flags(),
    };
    format!("contains {flags} {other}")
}

fn guid_read(random: &mut Random) -> String {
    let count = *random.pick(&[4, 4, 4, 4, 4, 4, 4, 4, 4, 4, 4, 4, 3, 5, 1, 2, 8]);
    let fields: Vec<Vec<u8>> = (0..count).map(|_| field(random)).collect();
    let mut bytes = fields.join(&b'-');
    match random.below(16) {
        0 => bytes.insert(0, b'-'),
        1 => bytes.push(b'-'),
        2 => random.damage(&mut bytes),
        3 => {
            let keep = random.below(bytes.len() as u64 + 1) as usize;
            bytes.truncate(keep);
        }
        4 => {
            let at = random.below(bytes.len() as u64 + 1) as usize;
            let strange = *random.pick(&[
                "é", "٣", "１", "𝟙", "–", "−", " ", "\0", "\n", "_", "+", "x", "g", "G", "/", ":",
                "@", "`", "{", "-", "~", "\u{7f}",
            ]);
            bytes.splice(at..at, strange.bytes());
        }
        5 => {
            let at = random.below(bytes.len() as u64 + 1) as usize;
            bytes.insert(at, 0x80 | random.byte());
        }
        _ => {}
    }
    format!("guid-read {}", hex_or_dash(&bytes))
}

fn field(random: &mut Random) -> Vec<u8> {
    let word = random.word32();
    let mut digits = match random.below(8) {
        0 => format!("{word:08x}"),
        1 => format!("{word:X}"),
        2 => format!("{word:08X}"),
        _ => format!("{word:x}"),
    };
    match random.below(24) {
        0 => digits.insert(0, '+'),
        1 => digits = format!("+{:x}", word >> 4),
        2 => digits = format!("+{:07x}", word >> 4),
        3 => {
            digits = String::from(*random.pick(&[
                "",
                "+",
                "++1",
                "+-",
                "0",
                "00000000",
                "000000000",
                "+0",
                "1+",
            ]))
        }
        4 => digits = format!("0{digits}"),
        _ => {}
    }
    digits.into_bytes()
}

/// Lines that are no case: another kind, a word too many or too few, digits that are none.
fn bad(random: &mut Random) -> String {
    let (_, _, make) = KINDS[random.below(KINDS.len() as u64 - 1) as usize];
    let line = make(random);
    match random.below(4) {
        0 => format!("un{line}"),
        1 => line.split(' ').next().unwrap_or("").to_string(),
        2 => format!("{line} 0"),
        _ => String::from(*random.pick(&[
            "",
            "checksum 0",
            "checksum 0g",
            "checksum 0A",
            "checksum zz",
            "guid-print 00",
            "guid-parts -",
            "contains 65536 0",
            "contains 1 x",
            "packet 1 4294967296 1 -",
            "packet 18446744073709551616 1 1 -",
            "validate 3 0 00000000000000000000000000000000 - -",
            "validate 0 65536 00000000000000000000000000000000 - -",
            "rowset-size - 1,,2 -",
            "value -1 00",
        ])),
    }
}
