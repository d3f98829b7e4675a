//! The man page, from the table of words.

use crate::arguments::Arguments;
use crate::help::{ABOUT, CONVENTIONS};
use crate::screen::Screen;
use crate::words::{Choice, HELP, VERSION, WORDS};
use crate::{Stop, Verdict};
use std::fmt::Write as _;

/// `cablefinch man`.
pub fn run(_: &Arguments, screen: &mut Screen) -> Result<Verdict, Stop> {
    screen.text().extend_from_slice(page().as_bytes());
    Ok(Verdict::Right)
}

fn page() -> String {
    let mut text = String::new();
    let version = env!("CARGO_PKG_VERSION");
    let _ = write!(
        text,
        ".TH CABLEFINCH 1 \"\" \"cablefinch {version}\" \"User Commands\"\n.nh\n.SH NAME\ncablefinch \\- {}\n",
        escaped(ABOUT)
    );
    text.push_str(".SH SYNOPSIS\n.nf\n");
    for word in WORDS {
        let _ = writeln!(text, "{}", escaped(&word.usage()));
    }
    let _ = writeln!(text, "{}", escaped("cablefinch --help | --version"));
    text.push_str(".fi\n.SH DESCRIPTION\n");
    for paragraph in CONVENTIONS {
        let _ = write!(text, ".PP\n{}\n", escaped(paragraph));
    }
    text.push_str(".SH OPTIONS\n");
    for choice in [HELP, VERSION] {
        option(&mut text, &choice);
    }
    text.push_str(".SH WORDS\n");
    for word in WORDS {
        let _ = write!(text, ".SS {}\n.PP\n", escaped(&word.usage()));
        let _ = writeln!(text, "{}.", escaped(&capital(word.summary)));
        for paragraph in word.details {
            let _ = write!(text, ".PP\n{}\n", escaped(paragraph));
        }
        for choice in word.options {
            option(&mut text, choice);
        }
        text.push_str(".PP\n.nf\n");
        for example in word.examples {
            let _ = writeln!(text, "    {}", escaped(example));
        }
        text.push_str(".fi\n");
    }
    text
}

fn option(text: &mut String, choice: &Choice) {
    let short = match choice.short {
        "" => String::new(),
        short => format!("{short}, "),
    };
    let _ = write!(
        text,
        ".TP\n{}\n{}.\n",
        escaped(&format!("{short}{}", choice.shown())),
        escaped(&capital(choice.summary))
    );
}

fn capital(sentence: &str) -> String {
    let mut rest = sentence.chars();
    let first = rest.next().map(|first| first.to_ascii_uppercase());
    first.into_iter().chain(rest).collect()
}

/// A line of text, with nothing in it that the formatter would obey.
fn escaped(text: &str) -> String {
    let mut line = String::new();
    if text.starts_with(['.', '\'']) {
        line.push_str("\\&");
    }
    for character in text.chars() {
        match character {
            '\\' => line.push_str("\\e"),
            '-' => line.push_str("\\-"),
            '`' => line.push_str("\\(ga"),
            '\'' => line.push_str("\\(aq"),
            '~' => line.push_str("\\(ti"),
            '^' => line.push_str("\\(ha"),
            _ => line.push(character),
        }
    }
    line
}
