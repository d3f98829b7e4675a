//! Cases and answers as text, for the programs of the comparison: the section "Words" of
//! compare/PROTOCOL.md. What a case asks for, each program knows by itself.

use std::io::{self, BufRead, BufReader, BufWriter, Write};

/// The line is no case.
pub struct BadCase;

/// Answers each line of standard input by a line on standard output, at once where no more input
/// is waiting.
pub fn answer_lines(mut answer: impl FnMut(&[u8]) -> String) -> io::Result<()> {
    let mut input = BufReader::with_capacity(1 << 18, io::stdin().lock());
    let mut output = BufWriter::with_capacity(1 << 18, io::stdout().lock());
    let mut line = Vec::new();
    loop {
        if input.buffer().is_empty() {
            output.flush()?;
        }
        line.clear();
        if input.read_until(b'\n', &mut line)? == 0 {
            return output.flush();
        }
        if line.last() == Some(&b'\n') {
            line.pop();
        }
        output.write_all(answer(&line).as_bytes())?;
        output.write_all(b"\n")?;
    }
}

// Read.

pub fn number(word: &[u8]) -> Result<u64, BadCase> {
    if word.is_empty() || word.len() > 20 || !word.iter().all(u8::is_ascii_digit) {
        return Err(BadCase);
    }
    let text = std::str::from_utf8(word).map_err(|_| BadCase)?;
    text.parse().map_err(|_| BadCase)
}

pub fn narrow(number: u64, most: u64) -> Result<u64, BadCase> {
    if number > most {
        Err(BadCase)
    } else {
        Ok(number)
    }
}

/// How many zeros the short form stands for, where the word is one.
pub fn zeros(word: &[u8]) -> Result<Option<usize>, BadCase> {
    match word {
        [b'z', count @ ..] => Ok(Some(number(count)? as usize)),
        _ => Ok(None),
    }
}

pub fn read_bytes(word: &[u8]) -> Result<Vec<u8>, BadCase> {
    if word == b"-" {
        return Ok(Vec::new());
    }
    if !word.contains(&b'+') {
        return repeated(word);
    }
    let mut bytes = Vec::new();
    for word in word.split(|&byte| byte == b'+') {
        bytes.extend(repeated(word)?);
    }
    Ok(bytes)
}

/// A piece, or hex digits so many times over.
fn repeated(word: &[u8]) -> Result<Vec<u8>, BadCase> {
    match word.iter().position(|&byte| byte == b'*') {
        None => piece(word),
        Some(at) if word[0] != b'z' => {
            Ok(piece(&word[..at])?.repeat(number(&word[at + 1..])? as usize))
        }
        Some(_) => Err(BadCase),
    }
}

/// Hex digits, or so many zeros.
fn piece(word: &[u8]) -> Result<Vec<u8>, BadCase> {
    if let Some(count) = zeros(word)? {
        return Ok(vec![0; count]);
    }
    if word.is_empty() || word.len() % 2 != 0 {
        return Err(BadCase);
    }
    word.chunks_exact(2)
        .map(|pair| Ok(digit(pair[0])? << 4 | digit(pair[1])?))
        .collect()
}

fn digit(byte: u8) -> Result<u8, BadCase> {
    match byte {
        b'0'..=b'9' => Ok(byte - b'0'),
        b'a'..=b'f' => Ok(byte - b'a' + 10),
        _ => Err(BadCase),
    }
}

pub fn read_words(word: &[u8]) -> Result<Vec<u64>, BadCase> {
    if word == b"-" {
        return Ok(Vec::new());
    }
    if let Some(count) = zeros(word)? {
        return Ok(vec![0; count]);
    }
    let mut words = Vec::with_capacity(1 + commas(word));
    for text in word.split(|&byte| byte == b',') {
        words.push(number(text)?);
    }
    Ok(words)
}

pub fn commas(word: &[u8]) -> usize {
    word.iter().filter(|&&byte| byte == b',').count()
}

pub fn read_id(word: &[u8]) -> Result<[u8; 16], BadCase> {
    if word.len() != 32 {
        return Err(BadCase);
    }
    read_bytes(word)?.try_into().map_err(|_| BadCase)
}

/// A register or a checksum: 16 hex digits.
pub fn read_register(word: &[u8]) -> Result<u64, BadCase> {
    if word.len() != 16 {
        return Err(BadCase);
    }
    let bytes = read_bytes(word)?.try_into().map_err(|_| BadCase)?;
    Ok(u64::from_be_bytes(bytes))
}

// Written.

pub fn hex(bytes: &[u8]) -> String {
    const DIGITS: &[u8; 16] = b"0123456789abcdef";
    let mut text = String::with_capacity(2 * bytes.len());
    for byte in bytes {
        text.push(DIGITS[usize::from(byte >> 4)] as char);
        text.push(DIGITS[usize::from(byte & 15)] as char);
    }
    text
}

pub fn hex_or_dash(bytes: &[u8]) -> String {
    if bytes.is_empty() {
        return String::from("-");
    }
    hex(bytes)
}

pub fn words(list: &[u64]) -> String {
    if list.is_empty() {
        return String::from("-");
    }
    let mut text = String::with_capacity(4 * list.len());
    for (index, word) in list.iter().enumerate() {
        if index > 0 {
            text.push(',');
        }
        text.push_str(&word.to_string());
    }
    text
}
