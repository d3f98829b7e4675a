//! Packets damaged inside one run of at most 64 consecutive bits of one checksummed stretch, each byte's
//! high bit first, where the stretch's stored word is not 0; and the refusal by which each is named, as
//! demand 3 says it. The two kinds of one seed go together, line by line.

use crate::packets::{SIGNATURE, Wire};
use crate::random::Random;
use crate::seal::checksum;
use crate::text::hex;

const FIXED: usize = 28;
const HEADER: usize = 36;

/// A checksummed stretch: where it begins and ends, and where its word is stored.
struct Stretch {
    name: Name,
    from: usize,
    end: usize,
    word: usize,
}

enum Name {
    Fixed,
    Variable,
    Part(usize),
}

/// The case.
pub fn case(random: &mut Random) -> String {
    draw(random).0
}

/// The answer that names the stretch.
pub fn named(random: &mut Random) -> String {
    draw(random).1
}

fn draw(random: &mut Random) -> (String, String) {
    loop {
        let parts: Vec<Option<Vec<u8>>> = (0..random.small(6))
            .map(|_| (!random.once_in(6)).then(|| any(random)))
            .collect();
        let wire = Wire::new(random.below(3) as u16, random.flags(), random.id(), &parts);
        let mut bytes = wire.bytes(|sum| sum);
        let stretches = stretches(&wire, &bytes);
        let Some(stretch) = stretches.get(random.below(stretches.len() as u64) as usize) else {
            continue;
        };
        flip(random, &mut bytes[stretch.from..stretch.end]);
        let case = format!(
            "packet {} 65536 {} {}",
            bytes.len(),
            parts.len(),
            hex(&bytes)
        );
        return (case, refusal(stretch, &bytes));
    }
}

fn any(random: &mut Random) -> Vec<u8> {
    let length = match random.below(8) {
        0 => random.below(600),
        _ => random.small(24),
    };
    random.content(length as usize)
}

/// Those whose stored word is not 0.
fn stretches(wire: &Wire, bytes: &[u8]) -> Vec<Stretch> {
    let count = wire.parts.len();
    let sums = HEADER + 4 * count;
    let mut list = vec![Stretch {
        name: Name::Fixed,
        from: 0,
        end: FIXED,
        word: FIXED,
    }];
    if bytes.len() > HEADER {
        let end = sums + 8 * count;
        list.push(Stretch {
            name: Name::Variable,
            from: HEADER,
            end,
            word: end,
        });
        let mut from = end + 8;
        for (index, part) in wire.parts.iter().enumerate() {
            let end = from + part.len();
            list.push(Stretch {
                name: Name::Part(index),
                from,
                end,
                word: sums + 8 * index,
            });
            from = end;
        }
    }
    list.retain(|stretch| word(bytes, stretch.word) != 0);
    list
}

/// Flips at least one bit, and none outside one run of at most 64.
fn flip(random: &mut Random, stretch: &mut [u8]) {
    let bits = 8 * stretch.len() as u64;
    let run = (1 + random.below(64)).min(bits);
    let start = random.below(bits - run + 1);
    let certain = random.below(run);
    for bit in 0..run {
        if bit == certain || random.once_in(2) {
            let at = start + bit;
            stretch[(at / 8) as usize] ^= 0x80 >> (at % 8);
        }
    }
}

fn refusal(stretch: &Stretch, bytes: &[u8]) -> String {
    let stored = word(bytes, stretch.word);
    let computed = checksum(&bytes[stretch.from..stretch.end]);
    assert!(stored != computed);
    match stretch.name {
        Name::Fixed => {
            let signature = u32::from_le_bytes([bytes[0], bytes[1], bytes[2], bytes[3]]);
            let kind = u16::from_le_bytes([bytes[4], bytes[5]]);
            if signature != SIGNATURE {
                format!("refused 1 0 {signature}")
            } else if kind > 2 {
                format!("refused 2 0 {kind}")
            } else {
                format!("refused 5 0 {stored} {computed}")
            }
        }
        Name::Variable => format!("refused 6 0 {stored} {computed}"),
        Name::Part(index) => format!("refused 7 {} {index} {stored} {computed}", stretch.end),
    }
}

fn word(bytes: &[u8], at: usize) -> u64 {
    let word = bytes[at..at + 8].try_into();
    u64::from_le_bytes(word.expect("eight bytes"))
}
