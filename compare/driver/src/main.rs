//! Answers the comparison's cases with the port: cases on standard input, one a line, and one answer
//! line for each, by compare/PROTOCOL.md. The port is called and its outcome written down; lent memory
//! is filled with 0xa5 before each call, and a byte changed that should not be is told as `touched`.
//! Inputs and outputs lie at addresses of every remainder by eight, and tables that are read into have
//! words beyond their whole entries, as the lengths of the case give it.

mod face;
#[allow(dead_code)]
#[path = "../../text.rs"]
mod text;

use face::Outcome;
use std::fmt::Write as _;
use std::io;
use text::{
    BadCase, answer_lines, hex_or_dash, narrow, number, read_id, read_register, read_words, words,
};

const NULL: u64 = u64::MAX;
/// The words of a part, of a value, of an item, of an error and of an attribute in a table.
const PART: u64 = 3;
const VALUE: u64 = 5;
const ITEM: u64 = 4;
const ERROR: u64 = 4;
const ATTRIBUTE: u64 = 5;
/// The modes by the numbers of `face.h`.
const ARCHIVE: u64 = 0;
const LIVE: u64 = 1;
const FILL: u8 = 0xa5;
const FILL_WORD: u64 = u64::from_ne_bytes([FILL; 8]);

type Answer = Result<String, BadCase>;

fn main() -> io::Result<()> {
    answer_lines(|line| answer(line).unwrap_or_else(|BadCase| "bad case".to_string()))
}

fn answer(line: &[u8]) -> Answer {
    let case: Vec<&[u8]> = line.split(|&byte| byte == b' ').collect();
    let (kind, mode) = mode_of(case[0]);
    match (kind, &case[1..]) {
        (b"crc", stretches) if !stretches.is_empty() => crc(stretches),
        (b"checksum", [bytes]) => Ok(format!("ok {:016x}", face::checksum(&read_bytes(bytes)?))),
        (b"update", [register, bytes]) => {
            let register = face::update(number(register)?, &read_bytes(bytes)?);
            Ok(format!("ok {register:016x}"))
        }
        (b"fold", [register, stretches @ ..]) if !stretches.is_empty() => {
            folded(face::fold, read_register(register)?, stretches)
        }
        (b"fold8", [register, stretches @ ..]) if !stretches.is_empty() => {
            folded(face::fold8, read_register(register)?, stretches)
        }
        (b"combine", [first, second, length]) => {
            let (first, second) = (read_register(first)?, read_register(second)?);
            let whole = face::combine(first, second, number(length)?);
            Ok(format!("ok {whole:016x}"))
        }
        (b"guid-print", [id]) => guid_print(&read_id(id)?),
        (b"guid-text", [id, room]) => guid_text(&read_id(id)?, number(room)?),
        (b"guid-bytes", [id, room]) => guid_bytes(&read_id(id)?, number(room)?),
        (b"guid-read", [text]) => guid_read(&read_bytes(text)?),
        (b"guid-parts", [id]) => guid_parts(&read_id(id)?),
        (b"packet", [limit, ceiling, room, bytes]) => {
            let ceiling = narrow(number(ceiling)?, u64::from(u32::MAX))? as u32;
            packet(
                mode,
                number(limit)?,
                Some(ceiling),
                number(room)?,
                &read_bytes(bytes)?,
            )
        }
        (b"packet-default", [limit, room, bytes]) => packet(
            mode,
            number(limit)?,
            None,
            number(room)?,
            &read_bytes(bytes)?,
        ),
        (b"packet-write", [kind, flags, id, room, area, parts]) => {
            let (kind, flags, id) = header(kind, flags, id)?;
            packet_write(
                mode,
                kind,
                flags,
                &id,
                number(room)?,
                &read_bytes(area)?,
                &read_words(parts)?,
            )
        }
        (b"typed-write", [kind, room, area, parts]) => packet_write(
            mode,
            number(kind)?,
            0,
            &[0; 16],
            number(room)?,
            &read_bytes(area)?,
            &read_words(parts)?,
        ),
        (b"typed-size", [kind, area, parts]) => {
            let kind = number(kind)?;
            let outcome = face::encoded_size(mode, kind, &read_bytes(area)?, &read_words(parts)?);
            Ok(or_refusal(&outcome, || format!("ok {}", outcome.count)))
        }
        (b"packet-size", [kind, flags, id, area, parts]) => {
            let (kind, _, _) = header(kind, flags, id)?;
            let outcome = face::encoded_size(mode, kind, &read_bytes(area)?, &read_words(parts)?);
            Ok(or_refusal(&outcome, || format!("ok {}", outcome.count)))
        }
        (b"validate", [kind, flags, id, area, parts]) => {
            let (kind, _, _) = header(kind, flags, id)?;
            let outcome = face::validate(mode, kind, &read_bytes(area)?, &read_words(parts)?);
            Ok(or_refusal(&outcome, || "ok".to_string()))
        }
        (b"part", [index, bytes, parts]) => {
            part(number(index)?, &read_bytes(bytes)?, &read_words(parts)?)
        }
        (b"contains", [flags, other]) => {
            let flags = narrow(number(flags)?, 0xffff)? as u16;
            let other = narrow(number(other)?, 0xffff)? as u16;
            Ok(format!("ok {}", u8::from(face::contains(flags, other))))
        }
        (b"rowset", [rows, values, bytes]) => {
            rowset(number(rows)?, number(values)?, &read_bytes(bytes)?)
        }
        (b"rowset-write", [room, area, rows, values]) => rowset_write(
            number(room)?,
            &read_bytes(area)?,
            &read_words(rows)?,
            &read_words(values)?,
        ),
        (b"rowset-size", [area, rows, values]) => {
            let outcome =
                face::rowset_size(&read_bytes(area)?, &read_words(rows)?, &read_words(values)?);
            Ok(or_refusal(&outcome, || format!("ok {}", outcome.count)))
        }
        (b"text-write", [room, area, rows, values]) => text_write(
            number(room)?,
            &read_bytes(area)?,
            &read_words(rows)?,
            &read_words(values)?,
        ),
        (b"text-size", [area, rows, values]) => {
            let outcome =
                face::text_size(&read_bytes(area)?, &read_words(rows)?, &read_words(values)?);
            Ok(or_refusal(&outcome, || format!("ok {}", outcome.count)))
        }
        (b"text-read", [rows, values, room, text]) => text_read(
            number(rows)?,
            number(values)?,
            number(room)?,
            &read_bytes(text)?,
        ),
        (b"value", [at, bytes]) => value(number(at)?, &read_bytes(bytes)?),
        (b"plain", [bytes]) => Ok(format!(
            "ok {}",
            u8::from(face::is_plain(&read_bytes(bytes)?))
        )),
        (b"pack", [room, area, values]) => {
            pack(number(room)?, &read_bytes(area)?, &read_words(values)?)
        }
        (b"yson", [room, bytes]) => yson(number(room)?, &read_bytes(bytes)?),
        (b"error-read", [errors, attributes, bytes]) => {
            error_read(number(errors)?, number(attributes)?, &read_bytes(bytes)?)
        }
        (b"error-write", [room, area, errors, attributes]) => error_write(
            number(room)?,
            &read_bytes(area)?,
            &read_words(errors)?,
            &read_words(attributes)?,
        ),
        (b"error-size", [area, errors, attributes]) => {
            let (errors, attributes) = (read_words(errors)?, read_words(attributes)?);
            let outcome = face::error_size(&read_bytes(area)?, &errors, &attributes);
            Ok(or_refusal(&outcome, || format!("ok {}", outcome.count)))
        }
        _ => Err(BadCase),
    }
}

// The words of a case.

/// A case's kind without the mode, and the mode.
fn mode_of(kind: &[u8]) -> (&[u8], u64) {
    match kind {
        b"packet-live" => (b"packet", LIVE),
        b"packet-default-live" => (b"packet-default", LIVE),
        b"packet-write-live" => (b"packet-write", LIVE),
        b"packet-size-live" => (b"packet-size", LIVE),
        b"validate-live" => (b"validate", LIVE),
        kind => (kind, ARCHIVE),
    }
}

/// Bytes that begin so many bytes behind a multiple of eight as the count of them does, as far as
/// they are no more than `MOVED`.
struct Placed {
    memory: Vec<u8>,
    start: usize,
}

const MOVED: usize = 1 << 20;

impl Placed {
    fn of(bytes: Vec<u8>) -> Self {
        if bytes.len() > MOVED {
            let (memory, start) = (bytes, 0);
            return Self { memory, start };
        }
        let mut memory = Vec::with_capacity(bytes.len() + 8);
        let address = memory.as_ptr() as usize;
        let start = (bytes.len() % 8 + 8 - address % 8) % 8;
        memory.resize(start, FILL);
        memory.extend(bytes);
        Self { memory, start }
    }

    fn filled(count: usize) -> Self {
        Self::of(vec![FILL; count])
    }
}

impl std::ops::Deref for Placed {
    type Target = [u8];

    fn deref(&self) -> &[u8] {
        &self.memory[self.start..]
    }
}

impl std::ops::DerefMut for Placed {
    fn deref_mut(&mut self) -> &mut [u8] {
        &mut self.memory[self.start..]
    }
}

fn read_bytes(word: &[u8]) -> Result<Placed, BadCase> {
    text::read_bytes(word).map(Placed::of)
}

fn header(kind: &[u8], flags: &[u8], id: &[u8]) -> Result<(u64, u16, [u8; 16]), BadCase> {
    Ok((
        narrow(number(kind)?, 2)?,
        narrow(number(flags)?, 0xffff)? as u16,
        read_id(id)?,
    ))
}

/// A lent table of so many words, or as many as can matter.
fn table(words: u64, most: usize) -> Vec<u64> {
    vec![FILL_WORD; words.min(most as u64) as usize]
}

// The words of an answer.

/// How many values a refusal's number carries.
fn carried(number: u64) -> usize {
    match number {
        1 | 2 | 3 | 10 | 12 | 13 | 14 | 15 | 19..=24 => 1,
        4 | 5 | 6 | 8 | 9 | 11 | 16 | 18 => 2,
        7 | 17 => 3,
        _ => 0,
    }
}

/// A refusal, with the consumed count where one is told; values beyond those it carries must be 0.
fn refusal(outcome: &Outcome, consumed: bool) -> String {
    let mut text = format!("refused {}", outcome.number);
    if consumed {
        let _ = write!(text, " {}", outcome.count);
    } else {
        assert!(outcome.count == 0);
    }
    let count = carried(outcome.number);
    for value in &outcome.values[..count] {
        let _ = write!(text, " {value}");
    }
    assert!(outcome.values[count..].iter().all(|&value| value == 0));
    text
}

fn or_refusal(outcome: &Outcome, accepted: impl FnOnce() -> String) -> String {
    assert!(outcome.kind == 0 || outcome.kind == 2);
    if outcome.kind == face::ACCEPTED {
        accepted()
    } else {
        refusal(outcome, false)
    }
}

fn mark(mut text: String, kept: bool) -> String {
    if !kept {
        text.push_str(" touched");
    }
    text
}

fn words_kept(words: &[u64]) -> bool {
    words.iter().all(|&word| word == FILL_WORD)
}

fn bytes_kept(bytes: &[u8]) -> bool {
    bytes.iter().all(|&byte| byte == FILL)
}

// The checksum and GUIDs.

fn crc(stretches: &[&[u8]]) -> Answer {
    let mut register = 0;
    for stretch in stretches {
        register = face::update(register, &read_bytes(stretch)?);
    }
    Ok(format!("ok {:016x}", face::finish(register)))
}

/// An engine over stretches in order. Short ones lie at each address there is by eight in turn; where
/// one gives another register, the line tells so.
fn folded(engine: fn(u64, &[u8]) -> u64, register: u64, stretches: &[&[u8]]) -> Answer {
    let mut after = register;
    for stretch in stretches {
        let bytes = text::read_bytes(stretch)?;
        let before = after;
        after = engine(before, &bytes);
        if bytes.len() > MOVED {
            continue;
        }
        let mut memory = vec![FILL; bytes.len() + 8];
        for start in 0..8 {
            let place = &mut memory[start..start + bytes.len()];
            place.copy_from_slice(&bytes);
            if engine(before, place) != after {
                return Ok(format!("other register at {start}"));
            }
        }
    }
    Ok(format!("ok {after:016x}"))
}

fn guid_print(id: &[u8]) -> Answer {
    let mut out = [FILL; 48];
    let outcome = face::guid_print(id, &mut out);
    assert!(outcome.kind == face::ACCEPTED);
    let (text, rest) = out.split_at(outcome.count as usize);
    Ok(mark(
        format!("ok {}", String::from_utf8_lossy(text)),
        bytes_kept(rest),
    ))
}

fn guid_text(id: &[u8], room: u64) -> Answer {
    let mut out = Placed::filled(room.min(64) as usize);
    let outcome = face::guid_print(id, &mut out);
    if outcome.kind != face::ACCEPTED {
        return Ok(mark(refusal(&outcome, false), bytes_kept(&out)));
    }
    let (text, rest) = out.split_at(outcome.count as usize);
    let text = format!("ok {} {}", outcome.count, String::from_utf8_lossy(text));
    Ok(mark(text, bytes_kept(rest)))
}

/// The id written from its parts; from its halves the same must come.
fn guid_bytes(id: &[u8], room: u64) -> Answer {
    let [a, b, c, d, ..] = face::guid_parts(id).values;
    let [first, second, ..] = face::guid_halves(id).values;
    let mut out = Placed::filled(room.min(64) as usize);
    let outcome = face::guid_from_parts([a, b, c, d].map(|word| word as u32), &mut out);
    let mut other = Placed::filled(room.min(64) as usize);
    let otherwise = face::guid_from_halves(first, second, &mut other);
    assert!(outcome.count == otherwise.count && outcome.values == otherwise.values);
    assert!(outcome.number == otherwise.number && out[..] == other[..]);
    Ok(written(&outcome, &out))
}

fn wire(words: &[u64]) -> Vec<u8> {
    words
        .iter()
        .flat_map(|&word| (word as u32).to_le_bytes())
        .collect()
}

fn guid_read(text: &[u8]) -> Answer {
    let outcome = face::guid_parse(text);
    Ok(or_refusal(&outcome, || {
        format!("ok {}", hex_or_dash(&wire(&outcome.values[..4])))
    }))
}

/// The id that a function writes, and what it leaves of a byte behind it.
fn made(write: impl FnOnce(&mut [u8]) -> Outcome) -> Vec<u8> {
    let mut out = [FILL; 17];
    let outcome = write(&mut out);
    assert!(outcome.kind == face::ACCEPTED && outcome.count == 16);
    out[..16 + usize::from(out[16] != FILL)].to_vec()
}

fn guid_parts(id: &[u8]) -> Answer {
    let [a, b, c, d, ..] = face::guid_parts(id).values;
    let [first, second, ..] = face::guid_halves(id).values;
    let null = u8::from(face::guid_is_null(id));
    let mut text = format!("ok {a} {b} {c} {d} {first} {second} {null}");
    if made(|out| face::guid_from_parts([a, b, c, d].map(|word| word as u32), out)) != id
        || made(|out| face::guid_from_halves(first, second, out)) != id
    {
        text.push_str(" and another id is made of them");
    }
    Ok(text)
}

// Packets.

fn packet(mode: u64, limit: u64, ceiling: Option<u32>, room: u64, input: &[u8]) -> Answer {
    // Each part has twelve bytes of headers, so more room than that cannot matter. A word more makes
    // no whole entry.
    let mut parts = table(
        room.saturating_mul(PART),
        PART as usize * (input.len() / 12 + 8),
    );
    parts.extend(vec![FILL_WORD; input.len() % PART as usize]);
    let outcome = match ceiling {
        Some(ceiling) => face::decode_with(mode, input, limit, ceiling, &mut parts),
        None => face::decode(mode, input, limit, &mut parts),
    };
    if outcome.kind == face::MORE {
        assert!(outcome.count == 0 && outcome.number == 0 && outcome.values == [0; 7]);
        return Ok(mark("more".to_string(), words_kept(&parts)));
    }
    if outcome.kind != face::ACCEPTED {
        return Ok(mark(refusal(&outcome, true), words_kept(&parts)));
    }
    let [kind, flags, .., count] = outcome.values;
    let id = hex_or_dash(&wire(&outcome.values[2..6]));
    let mut text = format!("ok {} {kind} {flags} {id} {count}", outcome.count);
    let (entries, rest) = parts.split_at((PART * count) as usize);
    for entry in entries.chunks_exact(PART as usize) {
        let _ = match entry {
            [0, NULL, sum] => write!(text, " null:{sum}"),
            entry => write!(text, " {}+{}:{}", entry[0], entry[1], entry[2]),
        };
    }
    Ok(mark(text, words_kept(rest)))
}

/// At most so many bytes can be written of an area's stretches.
fn most(area: &[u8], fixed: u64, lengths: impl Iterator<Item = u64>) -> u64 {
    lengths
        .filter(|&length| length <= area.len() as u64)
        .fold(fixed, u64::saturating_add)
}

fn written(outcome: &Outcome, out: &[u8]) -> String {
    if outcome.kind != face::ACCEPTED {
        return mark(or_refusal(outcome, String::new), bytes_kept(out));
    }
    let (bytes, rest) = out.split_at(outcome.count as usize);
    mark(
        format!("ok {} {}", outcome.count, hex_or_dash(bytes)),
        bytes_kept(rest),
    )
}

fn packet_write(
    mode: u64,
    kind: u64,
    flags: u16,
    id: &[u8],
    room: u64,
    area: &[u8],
    parts: &[u64],
) -> Answer {
    let most = most(
        area,
        64 + 6 * parts.len() as u64,
        parts.iter().skip(1).step_by(PART as usize).copied(),
    );
    let mut out = Placed::filled(room.min(most) as usize);
    let outcome = face::encode(mode, kind, flags, id, area, parts, &mut out);
    Ok(written(&outcome, &out))
}

fn part(index: u64, input: &[u8], parts: &[u64]) -> Answer {
    let index = index as usize;
    let [offset, length, ..] = face::part(input, parts, index).values;
    let bytes = hex_or_dash(&input[offset as usize..][..length as usize]);
    Ok(format!(
        "ok {bytes} {:016x}",
        face::part_checksum(input, parts, index)
    ))
}

// Rowsets.

fn rowset(rows: u64, values: u64, input: &[u8]) -> Answer {
    // Each row and each value has eight bytes, so more room than that cannot matter.
    let most = input.len() / 8 + 8;
    let mut rows = table(rows, most);
    let mut values = table(values.saturating_mul(VALUE), VALUE as usize * most);
    values.extend(vec![FILL_WORD; input.len() % VALUE as usize]);
    let outcome = face::decode_rowset(input, &mut rows, &mut values);
    if outcome.kind != face::ACCEPTED {
        let kept = words_kept(&rows) && words_kept(&values);
        return Ok(mark(or_refusal(&outcome, String::new), kept));
    }
    let [row_count, value_count, ..] = outcome.values;
    let (rows, rows_rest) = rows.split_at(row_count as usize);
    let (values, values_rest) = values.split_at((VALUE * value_count) as usize);
    let text = format!(
        "ok {row_count} {value_count} {} {}",
        words(rows),
        words(values)
    );
    Ok(mark(text, words_kept(rows_rest) && words_kept(values_rest)))
}

fn rowset_write(room: u64, area: &[u8], rows: &[u64], values: &[u64]) -> Answer {
    let fixed = 64 + 8 * rows.len() as u64 + 8 * values.len() as u64;
    let most = most(
        area,
        fixed,
        values.iter().skip(4).step_by(VALUE as usize).copied(),
    );
    let mut out = Placed::filled(room.min(most) as usize);
    let outcome = face::encode_rowset(area, rows, values, &mut out);
    Ok(written(&outcome, &out))
}

/// What was written, where the size answered the same, room aside.
fn as_sized(sized: &Outcome, outcome: &Outcome, out: &[u8]) -> String {
    let alike = match outcome.number {
        17 => sized.kind == face::ACCEPTED && sized.count == outcome.values[1],
        _ => {
            sized.kind == outcome.kind
                && sized.count == outcome.count
                && sized.values == outcome.values
        }
    };
    if alike {
        written(outcome, out)
    } else {
        "other answer of the size".to_string()
    }
}

/// The text of the tables. The size must answer the same, room aside.
fn text_write(room: u64, area: &[u8], rows: &[u64], values: &[u64]) -> Answer {
    // A value without its bytes has at most 25, a line's end among them, and each of its bytes three.
    let lengths = values.iter().skip(4).step_by(VALUE as usize).copied();
    let most = 64 + 2 * rows.len() as u64 + 5 * values.len() as u64 + 3 * most(area, 0, lengths);
    let mut out = Placed::filled(room.min(most) as usize);
    let sized = face::text_size(area, rows, values);
    let outcome = face::write_text(area, rows, values, &mut out);
    Ok(as_sized(&sized, &outcome, &out))
}

fn text_read(rows: u64, values: u64, room: u64, input: &[u8]) -> Answer {
    // A row has a byte of text, a value four, and a byte of the area one.
    let mut rows = table(rows, input.len() + 8);
    let most = VALUE as usize * (input.len() / 4 + 8);
    let mut values = table(values.saturating_mul(VALUE), most);
    values.extend(vec![FILL_WORD; input.len() % VALUE as usize]);
    let mut area = Placed::filled(room.min(input.len() as u64 + 8) as usize);
    let outcome = face::read_text(input, &mut rows, &mut values, &mut area);
    if outcome.kind != face::ACCEPTED {
        let kept = words_kept(&rows) && words_kept(&values) && bytes_kept(&area);
        return Ok(mark(or_refusal(&outcome, String::new), kept));
    }
    let [row_count, value_count, ..] = outcome.values;
    let (rows, rows_rest) = rows.split_at(row_count as usize);
    let (values, values_rest) = values.split_at((VALUE * value_count) as usize);
    let (bytes, area_rest) = area.split_at(outcome.count as usize);
    let text = format!(
        "ok {row_count} {value_count} {} {} {} {}",
        outcome.count,
        words(rows),
        words(values),
        hex_or_dash(bytes)
    );
    let kept = words_kept(rows_rest) && words_kept(values_rest) && bytes_kept(area_rest);
    Ok(mark(text, kept))
}

/// The table is lent as it is given; a refusal must leave it so.
fn pack(room: u64, area: &[u8], values: &[u64]) -> Answer {
    let lengths = values.iter().skip(4).step_by(VALUE as usize).copied();
    let mut out = Placed::filled(room.min(most(area, 8, lengths)) as usize);
    let mut table = values.to_vec();
    let outcome = face::pack(area, &mut table, &mut out);
    if outcome.kind != face::ACCEPTED {
        let kept = table == values && bytes_kept(&out);
        return Ok(mark(or_refusal(&outcome, String::new), kept));
    }
    let (bytes, rest) = out.split_at(outcome.count as usize);
    let text = format!(
        "ok {} {} {}",
        outcome.count,
        words(&table),
        hex_or_dash(bytes)
    );
    Ok(mark(text, bytes_kept(rest)))
}

fn value(at: u64, input: &[u8]) -> Answer {
    let outcome = face::read_value(input, at as usize);
    Ok(or_refusal(&outcome, || {
        let [id, kind, aggregate, word, length, ..] = outcome.values;
        format!(
            "ok {id} {kind} {aggregate} {word} {length} {}",
            outcome.count
        )
    }))
}

// YSON.

/// The items of an outer map. The check without a table must answer the same, room aside.
fn yson(room: u64, input: &[u8]) -> Answer {
    // A key, an equals sign and a value have four bytes at least.
    let mut items = table(
        room.saturating_mul(ITEM),
        ITEM as usize * (input.len() / 4 + 8),
    );
    items.extend(vec![FILL_WORD; input.len() % ITEM as usize]);
    let checked = face::yson_check(input);
    let outcome = face::yson_items(input, &mut items);
    let alike = match outcome.number {
        17 => checked.kind == face::ACCEPTED && checked.values[0] == outcome.values[1],
        _ => {
            or_refusal(&checked, String::new) == or_refusal(&outcome, String::new)
                && checked.values == outcome.values
        }
    };
    if !alike {
        return Ok("other answer of the check".to_string());
    }
    if outcome.kind != face::ACCEPTED {
        return Ok(mark(or_refusal(&outcome, String::new), words_kept(&items)));
    }
    let [count, ..] = outcome.values;
    let (items, rest) = items.split_at((ITEM * count) as usize);
    Ok(mark(
        format!("ok {count} {}", words(items)),
        words_kept(rest),
    ))
}

// Error messages.

fn error_read(errors: u64, attributes: u64, input: &[u8]) -> Answer {
    // An error and an attribute have two bytes at least, but for the outermost error.
    let most = input.len() / 2 + 8;
    let mut errors = table(errors.saturating_mul(ERROR), ERROR as usize * most);
    errors.extend(vec![FILL_WORD; input.len() % ERROR as usize]);
    let mut attributes = table(
        attributes.saturating_mul(ATTRIBUTE),
        ATTRIBUTE as usize * most,
    );
    attributes.extend(vec![FILL_WORD; input.len() % ATTRIBUTE as usize]);
    let outcome = face::error_read(input, &mut errors, &mut attributes);
    if outcome.kind != face::ACCEPTED {
        let kept = words_kept(&errors) && words_kept(&attributes);
        return Ok(mark(or_refusal(&outcome, String::new), kept));
    }
    let [error_count, attribute_count, ..] = outcome.values;
    let (errors, errors_rest) = errors.split_at((ERROR * error_count) as usize);
    let (attributes, attributes_rest) = attributes.split_at((ATTRIBUTE * attribute_count) as usize);
    let text = format!(
        "ok {error_count} {attribute_count} {} {}",
        words(errors),
        words(attributes)
    );
    let kept = words_kept(errors_rest) && words_kept(attributes_rest);
    Ok(mark(text, kept))
}

/// The tables written. The size must answer the same, room aside.
fn error_write(room: u64, area: &[u8], errors: &[u64], attributes: &[u64]) -> Answer {
    // An error's three heads have at most 39 bytes, an attribute's 33.
    let fixed = 64 + 10 * errors.len() as u64 + 7 * attributes.len() as u64;
    let texts = errors.iter().skip(3).step_by(ERROR as usize);
    let keys = attributes.iter().skip(2).step_by(ATTRIBUTE as usize);
    let values = attributes.iter().skip(4).step_by(ATTRIBUTE as usize);
    let most = most(area, fixed, texts.chain(keys).chain(values).copied());
    let mut out = Placed::filled(room.min(most) as usize);
    let sized = face::error_size(area, errors, attributes);
    let outcome = face::error_write(area, errors, attributes, &mut out);
    Ok(as_sized(&sized, &outcome, &out))
}
