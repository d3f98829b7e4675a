//! The words of the command line, read by the table of words.

use crate::words::{self, Choice, WORDS, Word};
use crate::{Stop, shown};
use std::ffi::{OsStr, OsString};
use std::fmt::Display;
use std::str::FromStr;

/// What stands for standard input.
pub const STANDARD_INPUT: &str = "-";

/// What was asked for.
pub enum Asked {
    /// A word's work.
    Word(&'static Word, Arguments),
    /// Help: with a word, or with all of them.
    Help(Option<&'static Word>),
    /// The command's version.
    Version,
}

/// A word's options and operands.
pub struct Arguments {
    options: Vec<(&'static Choice, OsString)>,
    operands: Vec<OsString>,
}

impl Arguments {
    /// The operands, as many as the word takes.
    pub fn operands(&self) -> &[OsString] {
        &self.operands
    }

    /// Operand `index` as text.
    pub fn text(&self, index: usize) -> String {
        let operand = self.operands.get(index).map(OsString::as_os_str);
        shown::name(operand.unwrap_or_default())
    }

    /// Whether an option was given.
    pub fn has(&self, choice: &Choice) -> bool {
        self.value(choice).is_some()
    }

    /// The number that an option was given, of the last where it was given twice.
    pub fn number<N: FromStr + PartialOrd + Display>(
        &self,
        choice: &Choice,
        most: N,
    ) -> Result<Option<N>, Stop> {
        let Some(value) = self.value(choice) else {
            return Ok(None);
        };
        match value.to_str().and_then(|text| text.parse().ok()) {
            Some(number) if number <= most => Ok(Some(number)),
            _ => Err(Stop::Usage(format!(
                "{} {}: give a decimal number of at most {most}",
                choice.name,
                shown::name(value)
            ))),
        }
    }

    fn value(&self, choice: &Choice) -> Option<&OsStr> {
        let mut given = self.options.iter().rev();
        given
            .find(|(given, _)| given.name == choice.name)
            .map(|(_, value)| value.as_os_str())
    }
}

/// Reads the command line behind the command's own name.
pub fn read(mut rest: impl Iterator<Item = OsString>) -> Result<Asked, Stop> {
    const ALL: &str = "`cablefinch --help` shows all words";
    let Some(first) = rest.next() else {
        return Err(Stop::Usage(format!("no word was given: {ALL}")));
    };
    if words::HELP.is(&first) {
        return Ok(Asked::Help(None));
    }
    if words::VERSION.is(&first) {
        return Ok(Asked::Version);
    }
    let Some(word) = WORDS.iter().find(|word| first == word.name) else {
        let first = shown::name(&first);
        return Err(Stop::Usage(format!("there is no word `{first}`: {ALL}")));
    };
    of(word, rest)
}

/// Reads what stands behind a word.
fn of(word: &'static Word, mut rest: impl Iterator<Item = OsString>) -> Result<Asked, Stop> {
    let wrong = |message: String| {
        let name = word.name;
        Stop::Usage(format!(
            "{name}: {message}; `cablefinch {name} --help` says more"
        ))
    };
    let mut arguments = Arguments {
        options: Vec::new(),
        operands: Vec::new(),
    };
    let mut options_end = false;
    while let Some(given) = rest.next() {
        let dashed = given.as_encoded_bytes().starts_with(b"-") && given != STANDARD_INPUT;
        if options_end || !dashed {
            arguments.operands.push(given);
            continue;
        }
        if given == "--" {
            options_end = true;
            continue;
        }
        if words::HELP.is(&given) {
            return Ok(Asked::Help(Some(word)));
        }
        // An option that is not Unicode has no name here.
        let text = given.to_str().unwrap_or_default();
        let (name, joined) = match text.split_once('=') {
            Some((name, value)) => (name, Some(OsString::from(value))),
            None => (text, None),
        };
        let Some(choice) = word.options.iter().find(|choice| choice.name == name) else {
            let given = shown::name(&given);
            return Err(wrong(format!(
                "there is no option `{given}`; if it is no option, put `--` before it"
            )));
        };
        let value = match (choice.value, joined) {
            (None, None) => OsString::new(),
            (None, Some(_)) => return Err(wrong(format!("`{name}` takes no value"))),
            (Some(_), Some(value)) => value,
            (Some(value), None) => rest
                .next()
                .ok_or_else(|| wrong(format!("`{name}` wants {value} behind it")))?,
        };
        arguments.options.push((choice, value));
    }
    let operands = &arguments.operands;
    let (least, most) = word.count;
    if operands.len() < least {
        let from = word.operands;
        let hint = if word.reads_files() {
            "; `-` is standard input"
        } else {
            ""
        };
        return Err(wrong(format!("it wants {from}{hint}")));
    }
    if let Some(extra) = operands.get(most) {
        let (extra, takes) = (shown::name(extra), word.takes());
        return Err(wrong(format!("`{extra}` is too much: it takes {takes}")));
    }
    if operands
        .iter()
        .filter(|&operand| operand == STANDARD_INPUT)
        .count()
        > 1
    {
        return Err(wrong("standard input can be read once".to_string()));
    }
    Ok(Asked::Word(word, arguments))
}
