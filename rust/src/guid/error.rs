//! A text that is not a GUID's: where it goes wrong, and why, for whoever has to mend it.

use crate::sys::Outcome;
use crate::table::count;
use std::fmt::{self, Write as _};

/// How many bytes of a refused text its error keeps, to show them. A text goes wrong at byte 35 at the
/// latest, and what stands before it are digits and dashes (the promise `place_shows`), so the place and
/// what stands there are among them.
const KEPT: usize = 48;

/// Why a text is not a GUID's.
#[derive(Debug, Clone, Copy, PartialEq, Eq, Hash)]
pub enum Reason {
    /// A field has no byte.
    Empty,
    /// A field has more than eight bytes.
    TooLong,
    /// A byte is not a hex digit.
    NotHex,
    /// The fields are not four.
    FieldCount,
}

impl Reason {
    /// The number of the reason, the same in all of Cablefinch.
    pub const fn number(self) -> u32 {
        match self {
            Self::Empty => 1,
            Self::TooLong => 2,
            Self::NotHex => 3,
            Self::FieldCount => 4,
        }
    }

    /// The reason of a number; the library gives these four.
    const fn of(number: u64) -> Self {
        match number {
            1 => Self::Empty,
            2 => Self::TooLong,
            3 => Self::NotHex,
            _ => Self::FieldCount,
        }
    }
}

/// A text that is not four fields of 1 to 8 hex digits with dashes between. It says where the text goes
/// wrong and why, and shows the place with a caret under it:
///
/// ```
/// use cablefinch::guid::{Guid, Reason};
///
/// let error = "1-2-+3-4".parse::<Guid>().unwrap_err();
/// assert_eq!((error.position(), error.reason()), (4, Reason::NotHex));
/// assert_eq!(
///     error.to_string(),
///     "not a GUID: '+' at byte 4 is not a hex digit\n    1-2-+3-4\n        ^"
/// );
/// ```
#[derive(Clone, Copy, PartialEq, Eq)]
pub struct ParseGuidError {
    position: usize,
    reason: Reason,
    /// The text's first bytes, and how many; whether the text goes on.
    text: [u8; KEPT],
    kept: usize,
    cut: bool,
}

impl ParseGuidError {
    /// The refusal of this text.
    pub(super) fn of(outcome: &Outcome, text: &[u8]) -> Self {
        let [position, reason, ..] = outcome.values;
        let mut kept = text.len().min(KEPT);
        // Not in the middle of a character, whose bytes are at most four.
        while kept > KEPT - 4 && text.get(kept).is_some_and(|byte| byte & 0xc0 == 0x80) {
            kept -= 1;
        }
        let mut bytes = [0; KEPT];
        bytes[..kept].copy_from_slice(&text[..kept]);
        Self {
            position: count(position),
            reason: Reason::of(reason),
            text: bytes,
            kept,
            cut: kept < text.len(),
        }
    }

    /// The first byte at which no GUID's text could go on so, counted from 0; or the text's length,
    /// where it merely ends too soon.
    pub const fn position(&self) -> usize {
        self.position
    }

    /// What is wrong there.
    pub const fn reason(&self) -> Reason {
        self.reason
    }

    /// The refusal's number, 16.
    pub const fn code(&self) -> u32 {
        16
    }

    /// The bytes before the place, which begin a GUID's text and so are digits and dashes, and the
    /// bytes from there on, as far as they are kept.
    fn halves(&self) -> (&[u8], &[u8]) {
        let text = &self.text[..self.kept];
        text.split_at(self.position.min(text.len()))
    }

    /// The number of the field that the place is in, from 1 on.
    fn field(&self) -> usize {
        let (before, _) = self.halves();
        1 + before.iter().filter(|&&byte| byte == b'-').count()
    }

    /// The text as far as it is kept. What cannot be seen on a screen is escaped.
    fn shown(&self) -> String {
        let mut shown = String::new();
        for chunk in self.text[..self.kept].utf8_chunks() {
            for character in chunk.valid().chars() {
                match character {
                    '\'' | '"' => shown.push(character),
                    _ => shown.extend(character.escape_debug()),
                }
            }
            for byte in chunk.invalid() {
                let _ = write!(shown, "\\x{byte:02x}");
            }
        }
        if self.cut {
            shown.push_str(" ..");
        }
        shown
    }

    /// The character at the place, or the byte where there is none. One that is not ASCII may look like
    /// a digit or a dash, so its number is told too.
    fn found(&self) -> String {
        let (_, rest) = self.halves();
        let character = rest
            .utf8_chunks()
            .next()
            .and_then(|chunk| chunk.valid().chars().next());
        match character {
            Some(character) if character.is_ascii() => format!("{character:?}"),
            Some(character) => format!("{character:?} (U+{:04X})", u32::from(character)),
            None => rest
                .first()
                .map_or_else(String::new, |byte| format!("{byte:#04x}")),
        }
    }
}

impl fmt::Display for ParseGuidError {
    fn fmt(&self, formatter: &mut fmt::Formatter<'_>) -> fmt::Result {
        let (position, field) = (self.position, self.field());
        formatter.write_str("not a GUID: ")?;
        match self.reason {
            Reason::Empty => write!(formatter, "field {field} is empty at byte {position}")?,
            Reason::TooLong => write!(
                formatter,
                "field {field} is too long: {} at byte {position} is its ninth byte",
                self.found()
            )?,
            Reason::NotHex => write!(
                formatter,
                "{} at byte {position} is not a hex digit",
                self.found()
            )?,
            Reason::FieldCount if field < 4 => {
                write!(
                    formatter,
                    "it ends at byte {position} with {field} of 4 fields"
                )?;
            }
            Reason::FieldCount => write!(formatter, "a fifth field begins at byte {position}")?,
        }
        let column = self.halves().0.len();
        write!(formatter, "\n    {}\n    {:column$}^", self.shown(), "")
    }
}

impl fmt::Debug for ParseGuidError {
    fn fmt(&self, formatter: &mut fmt::Formatter<'_>) -> fmt::Result {
        formatter
            .debug_struct("ParseGuidError")
            .field("position", &self.position)
            .field("reason", &self.reason)
            .field("text", &format_args!("\"{}\"", self.shown()))
            .finish()
    }
}

impl std::error::Error for ParseGuidError {}

#[cfg(test)]
mod tests {
    use super::super::Guid;
    use super::ParseGuidError;
    use super::Reason::{self, Empty, FieldCount, NotHex, TooLong};

    fn refused(text: impl AsRef<[u8]>) -> ParseGuidError {
        let error = Guid::from_text(text.as_ref()).expect_err("it is no GUID's text");
        assert_eq!(error.code(), 16);
        error
    }

    /// Document 02's examples, and those around them that `crates/guid_text` computes.
    #[test]
    fn places_and_reasons() {
        let examples: [(&str, usize, Reason); 24] = [
            ("", 0, Empty),
            ("-", 0, Empty),
            ("1", 1, FieldCount),
            ("1-", 2, Empty),
            ("g", 0, NotHex),
            ("1g-", 1, NotHex),
            ("1-+2-3-4", 2, NotHex),
            ("1--2", 2, Empty),
            ("1-2-3-", 6, Empty),
            ("1-2-3-4-", 7, FieldCount),
            ("1-2-3-4\n", 7, NotHex),
            ("1-2-3-123456789", 14, TooLong),
            ("12345678", 8, FieldCount),
            ("123456789", 8, TooLong),
            ("12345678g", 8, TooLong),
            ("12345678+", 8, TooLong),
            ("12345678-", 9, Empty),
            ("1-2-3-12345678-", 14, FieldCount),
            ("+1-2-3-4", 0, NotHex),
            ("0-0-0", 5, FieldCount),
            ("1-2-3--", 6, Empty),
            ("1-2-", 4, Empty),
            ("1-2-3-4-5", 7, FieldCount),
            ("1-2-3-4--", 7, FieldCount),
        ];
        for (text, position, reason) in examples {
            let error = refused(text);
            assert_eq!(
                (error.position(), error.reason()),
                (position, reason),
                "{text:?}"
            );
        }
        let numbers = [Empty, TooLong, NotHex, FieldCount].map(Reason::number);
        assert_eq!(numbers, [1, 2, 3, 4]);
    }

    #[test]
    fn what_a_person_reads() {
        let told = |text: &[u8], message: &str, shown: &str, column: usize| {
            let caret = format!("{:column$}^", "");
            let told = format!("not a GUID: {message}\n    {shown}\n    {caret}");
            assert_eq!(refused(text).to_string(), told);
        };
        let same = |text: &str, message: &str, column| told(text.as_bytes(), message, text, column);
        same("", "field 1 is empty at byte 0", 0);
        same("1-2--4", "field 3 is empty at byte 4", 4);
        same(
            "1-123456789-3-4",
            "field 2 is too long: '9' at byte 10 is its ninth byte",
            10,
        );
        same("x-2-3-4", "'x' at byte 0 is not a hex digit", 0);
        same("0-0-0", "it ends at byte 5 with 3 of 4 fields", 5);
        same("1-2-3-4-5", "a fifth field begins at byte 7", 7);
        // Pasted out of a mail: a dash that is none, a letter of another alphabet, a line's end, and what
        // cannot be seen at all.
        same("1–2-3-4", "'–' (U+2013) at byte 1 is not a hex digit", 1);
        same("а-2-3-4", "'а' (U+0430) at byte 0 is not a hex digit", 0);
        told(
            b"1-2-3-4\r\n",
            "'\\r' at byte 7 is not a hex digit",
            "1-2-3-4\\r\\n",
            7,
        );
        told(
            "1-2\u{200b}-3-4".as_bytes(),
            "'\\u{200b}' (U+200B) at byte 3 is not a hex digit",
            "1-2\\u{200b}-3-4",
            3,
        );
        told(
            b"1-\xff-\xe2\x80",
            "0xff at byte 2 is not a hex digit",
            "1-\\xff-\\xe2\\x80",
            2,
        );
        assert_eq!(
            format!("{:?}", refused("1-2\"")),
            "ParseGuidError { position: 3, reason: NotHex, text: \"1-2\"\" }"
        );
    }

    /// Of a long text only the first bytes are shown, and no character is cut.
    #[test]
    fn long_texts() {
        let all = "ffffffff-ffffffff-ffffffff-ffffffff";
        let error = refused(format!("{all}-{}", "0".repeat(1 << 20)));
        assert_eq!((error.position(), error.reason()), (35, FieldCount));
        let told = format!(
            "not a GUID: a fifth field begins at byte 35\n    {all}-000000000000 ..\n    {:35}^",
            ""
        );
        assert_eq!(error.to_string(), told);
        for before in 0..9 {
            let text = format!("{}{}", "0".repeat(before), "–€é𝟙".repeat(9));
            let told = refused(&text).to_string();
            assert!(!told.contains("\\x"), "{told}");
            assert!(told.contains(" .."), "{told}");
        }
        let whole = format!("{all}{}", " ".repeat(13));
        assert!(!refused(&whole).to_string().contains(".."));
    }
}
