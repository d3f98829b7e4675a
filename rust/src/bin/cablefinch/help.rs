//! What `--help` and `--version` print, from the table of words.

use crate::words::{Choice, HELP, VERSION, WORDS, Word};
use std::fmt::Write as _;

/// What the command is, in a line.
pub const ABOUT: &str =
    "packets, rowsets, errors, GUIDs and checksums of the YTsaurus bus, over a proved library";

/// What holds for every word.
pub const CONVENTIONS: &[&str] = &[
    "`-` in place of a file is standard input. `--` ends the options. Results go to standard output, words \
     about them to standard error.",
    "The status is 0 where all is right, 1 where something is refused, not whole or not plain, and 2 where \
     the command is written wrongly or a file cannot be read.",
    "Colours are shown on a terminal, and not where NO_COLOR is set. Work above a second has a line on its \
     progress on a terminal.",
];

/// The columns of a page.
const WIDTH: usize = 79;

/// The column at which what a word or an option does begins.
const COLUMN: usize = 22;

/// The command's name and version.
pub fn version() -> String {
    format!("cablefinch {}\n", env!("CARGO_PKG_VERSION"))
}

/// The help of the command.
pub fn whole() -> String {
    let mut text = String::new();
    wrap(&mut text, 0, &format!("cablefinch: {ABOUT}"));
    text.push_str("\nusage: cablefinch WORD [OPTION..] OPERAND..\n\n");
    for word in WORDS {
        entry(
            &mut text,
            &format!("{} {}", word.name, word.operands),
            word.summary,
        );
    }
    text.push('\n');
    option(
        &mut text,
        &Choice {
            summary: "shows this text; behind a word, what that word takes",
            ..HELP
        },
    );
    option(&mut text, &VERSION);
    paragraphs(&mut text, CONVENTIONS);
    text
}

/// The help of a word.
pub fn of(word: &Word) -> String {
    let mut text = String::new();
    wrap(
        &mut text,
        0,
        &format!("cablefinch {}: {}", word.name, word.summary),
    );
    let _ = writeln!(text, "\nusage: {}\n", word.usage());
    for choice in word.options {
        option(&mut text, choice);
    }
    option(&mut text, &HELP);
    paragraphs(&mut text, word.details);
    text.push('\n');
    for example in word.examples {
        let _ = writeln!(text, "    {example}");
    }
    text
}

fn paragraphs(text: &mut String, paragraphs: &[&str]) {
    for paragraph in paragraphs {
        text.push('\n');
        wrap(text, 0, paragraph);
    }
}

fn option(text: &mut String, choice: &Choice) {
    let name = match choice.short {
        "" => choice.shown(),
        short => format!("{short}, {}", choice.shown()),
    };
    entry(text, &name, choice.summary);
}

/// A name and, from [`COLUMN`] on, what it is.
fn entry(text: &mut String, name: &str, summary: &str) {
    let _ = write!(text, "  {:width$}", name.trim_end(), width = COLUMN - 2);
    let from = text.len();
    wrap(text, COLUMN, summary);
    // The first line begins behind the name, which is shorter than the column.
    text.replace_range(from..from + COLUMN, "");
}

/// Puts a paragraph in lines of at most [`WIDTH`] columns, each indented.
fn wrap(text: &mut String, indent: usize, paragraph: &str) {
    let mut column = 0;
    for word in paragraph.split(' ') {
        let width = word.chars().count();
        if column == 0 || column + 1 + width > WIDTH {
            if column > 0 {
                text.push('\n');
            }
            let _ = write!(text, "{:indent$}", "");
            column = indent;
        } else {
            text.push(' ');
            column += 1;
        }
        text.push_str(word);
        column += width;
    }
    text.push('\n');
}
