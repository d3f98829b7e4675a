//! Texts and values as a person reads them, each on one line whatever bytes it has: for logs and
//! terminals, which obey some of what others wrote.
//!
//! ```
//! use cablefinch::shown::{Node, Quoted, Text};
//!
//! assert_eq!(Text(b"Z\xc3\xa4hne\x1b[31m\xff").to_string(), r"Zähne\u{1b}[31m\xff");
//! assert_eq!(Quoted(b"a \"term\"").to_string(), r#""a \"term\"""#);
//! assert_eq!(Node(b"{\x01\x02a=\x02\x0e}").to_string(), r#"{"a" = 7}"#);
//! ```

use crate::yson;
use std::fmt::{self, Write};

/// Characters that a terminal would obey instead of showing them: controls, the ends of lines, and
/// those that turn the direction of writing.
fn obeyed(character: char) -> bool {
    character.is_control() || matches!(character, '\u{2028}'..='\u{202e}' | '\u{2066}'..='\u{2069}')
}

/// The text, with a backslash before each character that `mark` names.
fn show(bytes: &[u8], mark: &[char], formatter: &mut fmt::Formatter<'_>) -> fmt::Result {
    for chunk in bytes.utf8_chunks() {
        for character in chunk.valid().chars() {
            if mark.contains(&character) {
                formatter.write_char('\\')?;
                formatter.write_char(character)?;
            } else if obeyed(character) {
                write!(formatter, "{}", character.escape_default())?;
            } else {
                formatter.write_char(character)?;
            }
        }
        for byte in chunk.invalid() {
            write!(formatter, "\\x{byte:02x}")?;
        }
    }
    Ok(())
}

/// A text without quotes. Control characters, those that turn the direction of writing, and bytes that are
/// no UTF-8 are escaped.
#[derive(Debug, Clone, Copy, PartialEq, Eq)]
pub struct Text<'a>(pub &'a [u8]);

impl fmt::Display for Text<'_> {
    fn fmt(&self, formatter: &mut fmt::Formatter<'_>) -> fmt::Result {
        show(self.0, &[], formatter)
    }
}

/// A text in quotes, with a backslash before those and the backslashes within it.
#[derive(Debug, Clone, Copy, PartialEq, Eq)]
pub struct Quoted<'a>(pub &'a [u8]);

impl fmt::Display for Quoted<'_> {
    fn fmt(&self, formatter: &mut fmt::Formatter<'_>) -> fmt::Result {
        formatter.write_char('"')?;
        show(self.0, &['"', '\\'], formatter)?;
        formatter.write_char('"')
    }
}

/// YSON in its text form where it is YSON in the binary one, else as a [`Text`].
#[derive(Debug, Clone, Copy, PartialEq, Eq)]
pub struct Node<'a>(pub &'a [u8]);

impl fmt::Display for Node<'_> {
    fn fmt(&self, formatter: &mut fmt::Formatter<'_>) -> fmt::Result {
        if yson::check(self.0).is_err() {
            return show(self.0, &[], formatter);
        }
        // The node is checked, so every token is whole; where one were not, the rest would be left out.
        let mut rest = self.0;
        while let Some((&mark, behind)) = rest.split_first() {
            rest = behind;
            match mark {
                0x01 => {
                    let length = varint(&mut rest) as usize / 2;
                    let (text, behind) = rest.split_at(length.min(rest.len()));
                    rest = behind;
                    Quoted(text).fmt(formatter)?;
                }
                0x02 => {
                    let zigzag = varint(&mut rest);
                    let number = (zigzag >> 1) as i64 ^ -((zigzag & 1) as i64);
                    write!(formatter, "{number}")?;
                }
                0x03 => {
                    let Some((bytes, behind)) = rest.split_first_chunk() else {
                        break;
                    };
                    rest = behind;
                    write!(formatter, "{:?}", f64::from_le_bytes(*bytes))?;
                }
                0x04 => formatter.write_str("%false")?,
                0x05 => formatter.write_str("%true")?,
                0x06 => write!(formatter, "{}u", varint(&mut rest))?,
                b';' => formatter.write_str("; ")?,
                b'=' => formatter.write_str(" = ")?,
                mark => formatter.write_char(char::from(mark))?,
            }
        }
        Ok(())
    }
}

/// Takes a varint off the front; bits above 64 do not arise.
fn varint(rest: &mut &[u8]) -> u64 {
    let mut number = 0;
    for place in (0..).step_by(7) {
        let Some((&byte, behind)) = rest.split_first() else {
            break;
        };
        *rest = behind;
        number |= u64::from(byte & 0x7f).checked_shl(place).unwrap_or(0);
        if byte < 0x80 {
            break;
        }
    }
    number
}
