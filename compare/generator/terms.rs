//! Term lists: rowsets to be written as text and measured, and text to be read. Texts are grown from the
//! form, with fields that stray from it, and then cut or changed. The fixed ones are the readings'
//! examples, each byte in each state of the form, each byte's spellings, ids and counts around their
//! limits, rooms short by one, every short text, and every cut and flipped bit of one text.

use crate::edges::row_tables;
use crate::random::Random;
use crate::rowsets::{self, NULL, Tables, crossing_with};
use crate::text::{hex, hex_or_dash, read_bytes, words};

const LETTERS: [u8; 8] = *b"niudbsac";
const BLOBS: [u64; 3] = [16, 17, 18];
const LONGEST: u64 = 1 << 24;
const MOST_ROWS: u64 = 5_242_880;

/// A byte for each way in which the form takes one, and some that it takes nowhere.
const MARKS: [u8; 28] = *b"\n\t#0123567:!nibsc%AFafg ~\r\x7f\x80";

/// Those of which the short texts are made.
const SHORT: [u8; 12] = *b"\n\t#05:!ns%2F";

fn is_escaped(byte: u8) -> bool {
    !(0x21..=0x7e).contains(&byte) || byte == b'%'
}

fn spelled(byte: u8) -> String {
    if is_escaped(byte) {
        format!("%{byte:02X}")
    } else {
        char::from(byte).to_string()
    }
}

/// Bytes for blobs: many that are escaped, or beside those that are, or marks of the form.
fn terms(random: &mut Random, length: usize) -> Vec<u8> {
    const EDGES: [u8; 26] = *b"\x00\t\n\r\x1f !\"#$%&/0:A`az~\x7f\x80\x81\x9f\xa0\xff";
    match random.below(4) {
        0 => random.content(length),
        1 => (0..length).map(|_| *random.pick(&EDGES)).collect(),
        2 => (0..length).map(|_| b'!' + random.byte() % 94).collect(),
        _ => (0..length)
            .map(|_| match random.below(4) {
                0 => random.byte(),
                1 => *random.pick(&EDGES),
                _ => b'a' + random.byte() % 26,
            })
            .collect(),
    }
}

// Writing.

/// The bytes of the text over these tables, where they keep their rules.
fn measure(tables: &Tables) -> u64 {
    // An area that is told by its length is zeros, and each of these is escaped.
    let area = match tables.area.starts_with('z') {
        true => None,
        false => read_bytes(tables.area.as_bytes()).ok(),
    };
    let content = |entry: &[u64]| match entry[1] {
        3..=6 => 16,
        kind if BLOBS.contains(&kind) => {
            let stretch = area.as_ref().and_then(|area| {
                let end = entry[3].checked_add(entry[4])?;
                area.get(entry[3] as usize..end as usize)
            });
            match stretch {
                Some(bytes) => bytes.iter().map(|&byte| spelled(byte).len() as u64).sum(),
                None => entry[4].saturating_mul(3),
            }
        }
        _ => 0,
    };
    let value = |entry: &[u64]| {
        let head = entry[0].to_string().len() as u64 + 2 + u64::from(entry[2] > 0);
        content(entry).saturating_add(head)
    };
    let row = |&count: &u64| match count {
        NULL => 2,
        count => count.max(1),
    };
    let lines = tables.rows.iter().map(row);
    let values = tables.values.chunks_exact(5).map(value);
    lines.chain(values).fold(0, u64::saturating_add)
}

pub fn write(random: &mut Random) -> String {
    let tables = rowsets::tables(random, terms);
    let size = measure(&tables);
    let room = match random.below(10) {
        0 => 0,
        1 | 2 => size.saturating_sub(1).min(1 << 20),
        3 => random.below(size.min(1 << 12)),
        4 if size < 1 << 20 => size + 1,
        5 if size < 1 << 20 => size + random.below(50),
        6 if random.once_in(10) => random.edge(),
        _ => size.min(1 << 20),
    };
    write_line(room, &tables.area, &tables.rows, &tables.values)
}

pub fn size(random: &mut Random) -> String {
    let Tables { area, rows, values } = rowsets::tables(random, terms);
    size_line(&area, &rows, &values)
}

fn write_line(room: u64, area: &str, rows: &[u64], values: &[u64]) -> String {
    let (rows, values) = (words(rows), words(values));
    format!("text-write {room} {area} {rows} {values}")
}

fn size_line(area: &str, rows: &[u64], values: &[u64]) -> String {
    format!("text-size {area} {} {}", words(rows), words(values))
}

// Reading.

/// A text, and what it holds where nothing in it strays: rows, values and bytes of blobs.
#[derive(Default)]
struct Grown {
    text: Vec<u8>,
    held: [u64; 3],
    /// How often a field strays, in chances out of a thousand.
    stray: u64,
}

impl Grown {
    /// One of the wrong spellings now and then, else the right one.
    fn put(&mut self, random: &mut Random, right: &str, wrong: &[&str]) {
        let spelling = if random.below(1000) < self.stray {
            *random.pick(wrong)
        } else {
            right
        };
        self.text.extend_from_slice(spelling.as_bytes());
    }

    fn line(&mut self, random: &mut Random) {
        self.held[0] += 1;
        match random.below(8) {
            0 => {}
            1 => self.put(random, "#", &["##", " #", "# ", "#\t", "5:n\t#", "#5:n"]),
            _ => {
                let count = match random.below(60) {
                    0 => random.below(40),
                    1 if random.once_in(30) => 1022 + random.below(4),
                    _ => 1 + random.small(5),
                };
                for index in 0..count {
                    if index > 0 {
                        self.put(
                            random,
                            "\t",
                            &["", "\t\t", " ", "\n", " \t", "\t ", ",", "\t#"],
                        );
                    }
                    self.value(random, count > 100);
                }
                self.held[1] += count;
            }
        }
        self.put(
            random,
            "\n",
            &["\r\n", "", "\t\n", " \n", "\0", "\n\r", "\x0b", "#\n"],
        );
    }

    /// A value; a short one where there are many.
    fn value(&mut self, random: &mut Random, short: bool) {
        self.id(random);
        self.put(random, ":", &["", "::", ": ", ";", " :", "!"]);
        if random.once_in(3) {
            self.put(random, "!", &["!!", " !", "! ", "?"]);
        }
        let letter = match short {
            true => *random.pick(b"ns"),
            false => *random.pick(&LETTERS),
        };
        let name = char::from(letter).to_string();
        self.put(
            random,
            &name,
            &[
                "N", "S", "B", "x", "", "f", "t", "l", "ni", "i!", "s!", "b", "i",
            ],
        );
        match letter {
            b'n' => self.put(random, "", &["0", "n", "!", "0000000000000000"]),
            b'b' => self.boolean(random),
            b'i' | b'u' | b'd' => self.scalar(random),
            _ => self.blob(random, short),
        }
    }

    fn id(&mut self, random: &mut Random) {
        let id = match random.below(3) {
            0 => random.around_one_of(&[10, 100, 1000, 10_000, 65_500, 65_530, 65_534]),
            _ => u64::from(random.column()),
        };
        let padded = format!("0{id}");
        let longer = format!("{id}0");
        let bound = 1 << random.below(40);
        let higher = (65_536 + random.below(bound)).to_string();
        let wrong = [
            &padded,
            &longer,
            &higher,
            "65536",
            "65540",
            "66000",
            "70000",
            "655350",
            "00",
            "",
            "+5",
            "-1",
            " 5",
            "5 ",
            "5.0",
            "0x5",
            "18446744073709551616",
        ];
        self.put(random, &id.to_string(), &wrong);
    }

    fn boolean(&mut self, random: &mut Random) {
        let right = format!("{:016x}", random.below(2));
        let other = format!("{:016x}", random.word());
        let bit = format!("{:016x}", 1u64 << random.below(64));
        let wrong = [
            &other,
            &bit,
            "0000000000000002",
            "000000000000001",
            "00000000000000001",
            "0",
            "1",
            "true",
            "",
        ];
        self.put(random, &right, &wrong);
    }

    fn scalar(&mut self, random: &mut Random) {
        let word = random.word();
        let capital = format!("{:016X}", word | 0xa << (4 * random.below(16)));
        let fewer = format!("{:015x}", word >> 4);
        let more = format!("{word:016x}0");
        let wrong = [
            &capital,
            &fewer,
            &more,
            &format!("{word:x}"),
            &word.to_string(),
            &format!("0x{word:014x}"),
            "",
            "000000000000000g",
        ];
        self.put(random, &format!("{word:016x}"), &wrong);
    }

    fn blob(&mut self, random: &mut Random, short: bool) {
        let length = match random.below(40) {
            _ if short => random.below(2),
            0 => random.below(200),
            _ => random.small(12),
        };
        for byte in terms(random, length as usize) {
            let escape = format!("%{byte:02X}");
            let small = format!("%{:02x}", byte | 0x0a);
            let wrong = [
                &escape, &small, "%41", "%2f", "%7E", "%7f", "%21", "%", "%%", "%2", "%F", "%G0",
                "%0G", "% 20", "%3", "%6F", " ", "\x00", "\x7f", "\u{e9}",
            ];
            self.put(random, &spelled(byte), &wrong);
        }
        self.held[2] += length;
    }
}

fn grown(random: &mut Random) -> Grown {
    let mut grown = Grown {
        stray: *random.pick(&[0, 0, 10, 50]),
        ..Grown::default()
    };
    let lines = if random.once_in(200) {
        random.below(100)
    } else {
        1 + random.small(6) - u64::from(random.once_in(20))
    };
    for _ in 0..lines {
        grown.line(random);
    }
    grown
}

pub fn read(random: &mut Random) -> String {
    let Grown { mut text, held, .. } = grown(random);
    random.spoil(&mut text, &MARKS);
    if random.once_in(200) {
        let length = random.small(30) as usize;
        text = (0..length).map(|_| *random.pick(&MARKS)).collect();
    }
    read_line(rooms(random, held), &text)
}

fn read_line([rows, values, room]: [u64; 3], text: &[u8]) -> String {
    format!("text-read {rows} {values} {room} {}", hex_or_dash(text))
}

/// Rooms that hold so much, mostly; or one of them is short, mostly by one.
fn rooms(random: &mut Random, held: [u64; 3]) -> [u64; 3] {
    let mut rooms = held.map(|count| match random.below(4) {
        0 => count + random.below(3),
        1 => count + random.below(60),
        _ => count,
    });
    let at = random.below(3) as usize;
    match random.below(12) {
        0..=2 => rooms[at] = held[at].saturating_sub(1),
        3 => rooms[at] = random.below(held[at] + 1),
        4 => rooms = held.map(|count| rowsets::room(random, count)),
        5 => rooms[at] = random.edge(),
        6 => rooms = [0; 3],
        _ => {}
    }
    rooms
}

// Fixed cases.

/// What every run begins with.
pub fn corners(lines: &mut Vec<String>) {
    examples(lines);
    spellings(lines);
    ids(lines);
    wide(lines);
    lines.extend(short(3));
    large(lines);
}

/// What a long run goes on with.
pub fn edges(lines: &mut Vec<String>) {
    states(lines);
    digits(lines);
    damaged(lines);
    tables(lines);
}

/// The readings' texts that are refused, and their example, into rooms around what it takes.
fn examples(lines: &mut Vec<String>) {
    let texts: [&[u8]; 45] = [
        b"x",
        b":n\n",
        b"\t5:n\n",
        b"#",
        b"##",
        b"#5:n\n",
        b"\n\nx",
        b"5",
        b"5\n",
        b"00:n\n",
        b"65536:n\n",
        b"70000",
        b"100000:n\n",
        b"5:",
        b"5:!!n\n",
        b"5:N\n",
        b"5:n",
        b"5:n0\n",
        b"5:n\r\n",
        b"5:iF\n",
        b"5:i000000000000000\n",
        b"5:i0123456789abcdef0\n",
        b"5:b1",
        b"5:b0000000000000010\n",
        b"5:b0000000000000002\n",
        b"5:b000000000000000\n",
        b"5:s",
        b"5:sa b\n",
        b"5:s\x7f",
        b"5:s\x80",
        b"5:s%",
        b"5:s%%",
        b"5:s%2",
        b"5:s%20",
        b"5:s%21\n",
        b"5:s%41\n",
        b"5:s%a0\n",
        b"5:s%7E\n",
        b"5:s%7f\n",
        b"5:s%0a\n",
        b"5:n\t",
        b"5:n\t\n",
        b"5:n\t#\n",
        b"5:n\t5:n",
        b"5:i0123456789abcdef",
    ];
    for text in texts {
        lines.push(read_line([9, 9, 9], text));
        lines.push(read_line([0, 0, 0], text));
    }
    let text = b"5:sa%20b\t65535:!n\n#\n\n";
    let (rows, values) = ([2, NULL, 0], [5, 16, 0, 0, 3, 65_535, 2, 1, 0, 0]);
    for room in (0..25).chain([1000, NULL]) {
        lines.push(write_line(room, "612062", &rows, &values));
    }
    lines.push(size_line("612062", &rows, &values));
    for rows in [0, 2, 3, 4, NULL] {
        for values in [0, 1, 2, 3, NULL] {
            for room in [0, 2, 3, 4, NULL] {
                lines.push(read_line([rows, values, room], text));
            }
        }
    }
    // A room that is short is asked for once the whole text has been read.
    for tail in ["x", "#", "5:n", "\n", "7:s\n", "7:sx\n"] {
        for rooms in [[0, 0, 0], [3, 2, 3], [4, 3, 3], [4, 3, 4]] {
            lines.push(read_line(rooms, &[text, tail.as_bytes()].concat()));
        }
    }
    // No text, and lines without values.
    for text in ["", "\n", "#\n", "\n\n", "#\n\n#\n", "\n#\n\n"] {
        for room in 0..4 {
            lines.push(read_line([room, 0, 0], text.as_bytes()));
        }
    }
    for rows in [&[][..], &[0], &[NULL], &[NULL, 0], &[0, NULL, NULL]] {
        lines.push(size_line("-", rows, &[]));
        for room in 0..7 {
            lines.push(write_line(room, "-", rows, &[]));
        }
    }
    // Equal blobs are stored each by itself, and an empty one's offset is the place where it stands.
    let blobs = b"1:sab\t1:s\t1:aab\t1:s\n\n2:c%00\t2:c\n";
    for room in [0, 4, 5, 6] {
        lines.push(read_line([3, 6, room], blobs));
    }
    // Stretches that overlap, and empty ones at both ends of the area.
    let values = [
        1, 16, 0, 0, 4, 2, 17, 1, 1, 2, 3, 18, 0, 4, 0, 4, 16, 1, 0, 0,
    ];
    for room in [0, 36, 37, 38] {
        lines.push(write_line(room, "41254220", &[1, 3], &values));
    }
}

/// Each byte written alone, spelled as it is written, standing for itself, and escaped with digits of
/// either case; each of them behind another too.
fn spellings(lines: &mut Vec<String>) {
    for byte in 0..=255u8 {
        let area = format!("{byte:02x}");
        let size = 4 + spelled(byte).len() as u64;
        lines.push(write_line(size, &area, &[1], &[1, 16, 0, 0, 1]));
        lines.push(write_line(size - 1, &area, &[1], &[1, 17, 0, 0, 1]));
        let unit = [&b"1:c"[..], &[byte], b"\n"].concat();
        lines.push(read_line([1, 1, 1], &unit));
        for escape in [format!("%{byte:02X}"), format!("%{byte:02x}")] {
            lines.push(read_line([1, 1, 1], format!("1:s{escape}\n").as_bytes()));
            lines.push(read_line([1, 1, 2], format!("1:a~{escape}").as_bytes()));
        }
    }
    let all: Vec<u8> = (0..=255).collect();
    let text: String = all.iter().map(|&byte| spelled(byte)).collect();
    let text = format!("0:s{text}\t0:!c{text}\n");
    lines.push(read_line([1, 2, 512], text.as_bytes()));
    lines.push(read_line([1, 2, 511], text.as_bytes()));
    let values = [0, 16, 0, 0, 256, 0, 18, 1, 0, 256];
    for room in [text.len() as u64 - 1, text.len() as u64] {
        lines.push(write_line(room, &hex(&all), &[2], &values));
    }
}

/// Ids around each count of digits and around the largest.
fn ids(lines: &mut Vec<String>) {
    for id in [
        0, 1, 9, 10, 11, 99, 100, 101, 999, 1000, 1001, 9999, 10_000, 10_001, 65_534, 65_535,
        65_536, 65_537,
    ] {
        for kind in [2, 3, 18] {
            let values = [id, kind, 1, 0, 0];
            lines.push(size_line("-", &[1], &values));
            for room in [23, 24, 25, 26] {
                lines.push(write_line(room, "-", &[1], &values));
            }
        }
    }
    for id in [
        "0",
        "00",
        "01",
        "000000",
        "1",
        "6",
        "9",
        "10",
        "65",
        "655",
        "6552",
        "6553",
        "6554",
        "6555",
        "7000",
        "9999",
        "65529",
        "65530",
        "65534",
        "65535",
        "65536",
        "65539",
        "65540",
        "65600",
        "66000",
        "70000",
        "99999",
        "100000",
        "655350",
        "65536553",
        "131071",
        "4294967296",
        "4294967301",
        "18446744073709551616",
        "18446744073709551621",
    ] {
        for text in [
            id.to_string(),
            format!("{id}:n\n"),
            format!("5:n\t{id}:n\n"),
            format!("{id}\n"),
        ] {
            lines.push(read_line([1, 2, 0], text.as_bytes()));
        }
    }
}

/// As many values as a row may have, one less and one more, with what may follow them, behind rows
/// that the index counts.
fn wide(lines: &mut Vec<String>) {
    for count in [1023, 1024, 1025] {
        for before in ["", "\n", "#\n\n", "7:n\t7:n\n#\n"] {
            for after in [
                "", "\n", "\t", "\tx", "\t0", "\t0x", "\t0:n\n", "x", "\n\n5",
            ] {
                let values = "0:n\t".repeat(count);
                let text = format!("{before}{}{after}", values.trim_end());
                lines.push(read_line([4, 1030, 0], text.as_bytes()));
            }
        }
        let values = [0, 2, 0, 0, 0].repeat(count + 1);
        lines.push(size_line("-", &[1, count as u64], &values));
        lines.push(write_line(4104, "-", &[count as u64, 1], &values));
        lines.push(write_line(4095, "-", &[NULL, count as u64, 0, 1], &values));
    }
}

/// Every text of so many bytes over some that matter, the shorter ones first.
pub fn short(most: u32) -> Vec<String> {
    let count = SHORT.len();
    (0..=most)
        .flat_map(|length| (0..count.pow(length)).map(move |index| (length, index)))
        .map(|(length, index)| {
            let digit = |place| SHORT[index / count.pow(place) % count];
            let text: Vec<u8> = (0..length).map(digit).collect();
            let room = index as u64 % 3;
            read_line([room + 2, room, room], &text)
        })
        .collect()
}

/// As many rows as there may be, the longest blob, and what may follow each.
fn large(lines: &mut Vec<String>) {
    for (room, tail) in [(MOST_ROWS, ""), (0, "+78"), (0, "+35")] {
        lines.push(format!(
            "text-read {room} 0 0 230a+0a*{}{tail}",
            MOST_ROWS - 1
        ));
    }
    for (room, tail) in [
        (LONGEST, "+0a"),
        (LONGEST - 1, "+0a"),
        (0, ""),
        (0, "+20"),
        (0, "+25"),
        (0, "+2532"),
        (0, "+2534"),
        (0, "+253230"),
        (0, "+61"),
        (0, "+6120"),
    ] {
        lines.push(format!("text-read 1 1 {room} 303a73+61*{LONGEST}{tail}"));
    }
    lines.push(format!(
        "text-read 1 1 {LONGEST} 303a61+253030*{LONGEST}+0a"
    ));
    lines.push(format!(
        "text-read 1 1 {LONGEST} 303a63+253030*{LONGEST}+25303020"
    ));
    lines.push(format!("text-write {MOST_ROWS} - z{MOST_ROWS} -"));
    lines.push(format!("text-size - z{} -", MOST_ROWS + 1));
    lines.push(format!("text-write 9 - z{} -", MOST_ROWS + 1));
    for length in [LONGEST, LONGEST + 1] {
        for room in [length + 3, length + 4] {
            lines.push(format!("text-write {room} 61*{length} 1 5,17,0,0,{length}"));
        }
        lines.push(format!(
            "text-size z{length} 1,1 0,2,0,0,0,1,17,0,0,{length}"
        ));
    }
}

/// Each byte in each state of the form, and a mark where a state comes by another way.
fn states(lines: &mut Vec<String>) {
    let fronts = [
        "",
        "#",
        "5:n\t",
        "0",
        "5",
        "6553",
        "6554",
        "65535",
        "5:",
        "5:!",
        "5:n",
        "5:i",
        "5:u000000000000000",
        "5:d0000000000000000",
        "5:b",
        "5:b000000000000000",
        "5:b0000000000000001",
        "5:s",
        "5:s%",
        "5:s%0",
        "5:s%2",
        "5:s%7",
        "5:s%F",
    ];
    for front in fronts {
        for byte in 0..=255 {
            lines.push(read_line([9, 9, 9], &[front.as_bytes(), &[byte]].concat()));
        }
    }
    for front in [
        "\n",
        "#\n",
        "5:n\n",
        "9",
        "65",
        "655",
        "6552",
        "10000",
        "0:",
        "5:!n",
        "5:u",
        "5:d",
        "5:i0",
        "5:d00000000000000",
        "5:!b0",
        "5:b00000000000000",
        "5:!a",
        "5:cab",
        "5:s%00",
        "5:s%1",
        "5:s%8",
        "5:s%9",
        "5:a%A",
        "5:c%E",
        "5:n\t5",
        "5:n\t0:s%",
        "#\n5:",
        "5:sa\n5:b",
    ] {
        for mark in MARKS {
            lines.push(read_line([9, 9, 9], &[front.as_bytes(), &[mark]].concat()));
        }
    }
}

/// A byte at each place of a scalar's digits and behind them.
fn digits(lines: &mut Vec<String>) {
    for kind in ["i", "u", "d", "b"] {
        for place in 0..=16 {
            for byte in *b"0129afgAFG/:`@ \t\n%" {
                let mut text = [b"5:", kind.as_bytes(), &[b'0'; 16], b"\n"].concat();
                text[3 + place] = byte;
                lines.push(read_line([1, 1, 0], &text));
            }
        }
    }
    for bit in 0..64 {
        let word = 1u64 << bit;
        for kind in [3, 4, 5, 6] {
            lines.push(write_line(21, "-", &[1], &[5, kind, 0, word, 0]));
        }
        for kind in ["i", "u", "!d", "b"] {
            lines.push(read_line(
                [1, 1, 0],
                format!("5:{kind}{word:016x}\n").as_bytes(),
            ));
        }
    }
}

/// Every cut of a text with all types in it, every flipped bit, every byte left out or put twice, and a
/// mark before each byte.
fn damaged(lines: &mut Vec<String>) {
    let whole = [
        &b"0:n\t7:!n\t1:i8000000000000001\t10:u000000000000000a\t255:d7ff0000000000001\n#\n\n"[..],
        b"6:b0000000000000001\t65535:!s#a%20b%25%FF\n4:a\t4:c!~\n",
    ]
    .concat();
    let held = [5, 9, 8];
    for at in 0..=whole.len() {
        lines.push(read_line(held, &whole[..at]));
        for mark in *b"\n\t#05:!n%F " {
            let mut text = whole.clone();
            text.insert(at, mark);
            lines.push(read_line(held, &text));
        }
    }
    for at in 0..whole.len() {
        let (front, back) = whole.split_at(at);
        lines.push(read_line(held, &[front, &back[1..]].concat()));
        lines.push(read_line(held, &[front, &back[..1], back].concat()));
        for bit in 0..8 {
            let mut text = whole.clone();
            text[at] ^= 1 << bit;
            lines.push(read_line(held, &text));
        }
    }
    for rows in [4, 5, 6] {
        for values in [8, 9, 10] {
            for room in [7, 8, 9] {
                lines.push(read_line([rows, values, room], &whole));
            }
        }
    }
}

/// The tables on which the rowset writer is tried, and sizes of rowsets around the largest.
fn tables(lines: &mut Vec<String>) {
    let area = "0102030425262728207f";
    for (rows, values) in row_tables() {
        lines.push(size_line(area, &rows, &values));
        let whole = Tables {
            area: area.to_string(),
            rows,
            values,
        };
        let size = measure(&whole).min(1000);
        for room in [size.saturating_sub(1), size] {
            lines.push(write_line(room, area, &whole.rows, &whole.values));
        }
    }
    let area = format!("z{LONGEST}");
    for over in [1, 8, 9] {
        let (rows, values) = crossing_with(over);
        lines.push(size_line(&area, &rows, &values));
    }
    let (_, values) = crossing_with(0);
    for (rows, more) in [
        (&[64, 0][..], &[][..]),
        (&[64, NULL], &[]),
        (&[65], &[0, 2, 0, 0, 0]),
        (&[65], &[0, 5, 0, 0, 0]),
        (&[64, 1], &[0, 18, 0, 0, 9]),
    ] {
        lines.push(write_line(64, &area, rows, &[&values, more].concat()));
    }
    // The text may be longer than 2^30 bytes.
    let long = [0, 18, 0, 0, LONGEST].repeat(22);
    lines.push(size_line(&area, &[22], &long));
    lines.push(write_line(99, &area, &[22], &long));
}

/// A rowset of just the largest size measured as text, and texts of one: read, and with a row, a byte
/// and a value more.
pub fn huge() -> Vec<String> {
    let (rows, values) = crossing_with(0);
    let mut lines = vec![size_line(&format!("z{LONGEST}"), &rows, &values)];
    let front = format!("303a73+61*{LONGEST}+09+").repeat(63);
    let last = values[values.len() - 1];
    for (last, tail) in [
        (last, "+0a"),
        (last, "+0a23"),
        (last, "+0a78"),
        (last, "+09303a6e0a"),
        (last + 1, "+0a"),
        (last + 1, ""),
    ] {
        lines.push(format!("text-read 0 0 0 {front}303a63+61*{last}{tail}"));
    }
    lines
}
