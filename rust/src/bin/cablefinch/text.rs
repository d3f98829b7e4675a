//! `cablefinch text` and `cablefinch rowset`: a rowset as the desk's tab-separated text, and back.

use crate::arguments::Arguments;
use crate::input::{self, Input};
use crate::screen::Screen;
use crate::words::TRIM;
use crate::{Stop, Verdict, shown};
use cablefinch::text::{TextError, read_text};
use cablefinch::wire::{self, MAX_ROWSET_SIZE, WireError};

/// The most bytes of a text that are read. A text has at most three bytes for a byte of its rowset, so that a
/// longer one is refused long before.
const MOST: usize = 4 * MAX_ROWSET_SIZE;

/// The lines of a spreadsheet's sheet, and the characters of a cell in the one that has fewest.
const SHEET_LINES: usize = 1_048_576;
const CELL_BYTES: usize = 32_767;

/// `cablefinch text FILE`.
pub fn run(arguments: &Arguments, screen: &mut Screen) -> Result<Verdict, Stop> {
    input::each(arguments.operands(), screen, |mut input, screen| {
        let bytes = input.part(screen)?;
        match wire::decode_rowset(&bytes).and_then(|rowset| rowset.write_text()) {
            Ok(text) => {
                screen.put(&text)?;
                if let Some(lost) = lost(&text) {
                    screen.tell(input.told(), &lost)?;
                }
                Ok(Verdict::Right)
            }
            Err(error) => {
                let why = format!("{error}\n    is it the bytes of one part?");
                refused(&input, &error, &why, screen)
            }
        }
    })
}

/// `cablefinch rowset FILE`.
pub fn back(arguments: &Arguments, screen: &mut Screen) -> Result<Verdict, Stop> {
    if screen.shows_results() {
        return Err(Stop::Usage(
            "rowset: its result is bytes and no text: write `> FILE` behind it".to_string(),
        ));
    }
    let trimming = arguments.has(&TRIM);
    input::each(arguments.operands(), screen, |mut input, screen| {
        let mut text = input.whole(MOST, screen)?;
        if trimming {
            trim(&mut text);
        }
        let bytes = read_text(&text).and_then(|read| {
            let bytes = read.rowset().encode();
            bytes.map_err(TextError::Limit)
        });
        let error = match bytes {
            Ok(bytes) => {
                screen.put(&bytes)?;
                return Ok(Verdict::Right);
            }
            Err(error) => error,
        };
        if let TextError::Limit(limit) = &error {
            return refused(&input, limit, &error.to_string(), screen);
        }
        // Every other refusal has its place.
        let (place, number) = (error.place().unwrap_or(0), error.code());
        let hint = if !trimming && trim_would_do(&text, place) {
            "\n    --trim takes away tabs and carriage returns at the ends of lines, as spreadsheets leave them"
        } else {
            ""
        };
        let shown = shown::line(&text, place);
        // Trimming moves bytes, but not lines and columns.
        let at = if trimming {
            String::new()
        } else {
            format!(" at byte {place}")
        };
        let why = format!("it is no rowset's text, refused by {number}{at}");
        screen.tell(input.told(), &format!("{why}\n    {error}{hint}\n{shown}"))?;
        Ok(Verdict::Refused)
    })
}

/// Tells of bytes that are no rowset, or of a text whose rows are too much for one.
fn refused(
    input: &Input,
    error: &WireError,
    why: &str,
    screen: &mut Screen,
) -> Result<Verdict, Stop> {
    let name = input.told();
    if matches!(error, WireError::AllocationFailed { .. }) {
        // That says nothing of the input.
        return Err(Stop::Input(format!(
            "{name}: {error}: end other programs, or use a larger machine"
        )));
    }
    let number = error.code();
    screen.tell(
        name,
        &format!("it is no rowset, refused by {number}\n    {why}"),
    )?;
    Ok(Verdict::Refused)
}

/// What of a text a spreadsheet would lose without a word, where it would lose something.
fn lost(text: &[u8]) -> Option<String> {
    let mut lines = text.split(|&byte| byte == b'\n');
    // Behind the last line feed stands nothing.
    lines.next_back();
    let count = lines.clone().count();
    let mut lost = Vec::new();
    if count > SHEET_LINES {
        lost.push(format!(
            "it has {count} lines, and a sheet has {SHEET_LINES}: the others are lost there"
        ));
    }
    let long = lines.clone().zip(1..).find_map(|(line, number)| {
        let mut values = line.split(|&byte| byte == b'\t');
        let value = values.find(|value| value.len() > CELL_BYTES)?;
        Some((number, value.len()))
    });
    if let Some((number, length)) = long {
        lost.push(format!(
            "line {number} has a value of {length} characters, and a cell has {CELL_BYTES} in some spreadsheets, 65535 \
             in others: it is cut there"
        ));
    }
    if lines.next_back() == Some(b"") {
        lost.push(
            "its last line is empty, and a spreadsheet saves no empty lines at the end".to_string(),
        );
    }
    (!lost.is_empty()).then(|| {
        format!(
            "it is written, but not for a spreadsheet\n    {}",
            lost.join("\n    ")
        )
    })
}

/// Whether a byte is one that spreadsheets leave at the ends of lines, where none can be right.
fn is_left(byte: u8) -> bool {
    byte == b'\t' || byte == b'\r'
}

/// Takes away tabs and carriage returns at the ends of lines. All other bytes keep line and column.
fn trim(text: &mut Vec<u8>) {
    let mut end = 0;
    for index in 0..text.len() {
        let byte = text[index];
        if byte == b'\n' {
            while end > 0 && is_left(text[end - 1]) {
                end -= 1;
            }
        }
        text[end] = byte;
        end += 1;
    }
    text.truncate(end);
}

/// Whether nothing but what [`trim`] takes away stands from a place, or from the tab before it, to the line's end.
fn trim_would_do(text: &[u8], place: usize) -> bool {
    let (before, rest) = text.split_at(place.min(text.len()));
    let mut rest = rest.iter().skip_while(|&&byte| is_left(byte));
    let stands =
        before.last() == Some(&b'\t') || text.get(place).is_some_and(|&byte| is_left(byte));
    stands && rest.next() == Some(&b'\n')
}
