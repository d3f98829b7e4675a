//! Where results and words about them go: standard output and standard error, with colours and a line on
//! the progress where they are a terminal.

use crate::shown;
use std::env;
use std::fs::File;
use std::io::{self, IsTerminal, Write};
use std::time::{Duration, Instant};

/// The results that are kept before they are written.
const FULL: usize = 1 << 16;

/// How long work takes before its progress is shown, and how often it then is.
const PATIENCE: Duration = Duration::from_secs(1);
const PAUSE: Duration = Duration::from_millis(200);

/// A colour of a terminal.
#[derive(Clone, Copy)]
pub enum Colour {
    Red = 31,
    Green = 32,
    Yellow = 33,
}

/// Both streams.
pub struct Screen {
    text: Vec<u8>,
    /// Whether results, and words about them, are coloured.
    result_colours: bool,
    word_colours: bool,
    progress: Option<Progress>,
}

struct Progress {
    /// When it is shown next.
    due: Instant,
    /// Whether it stands on the terminal now.
    stands: bool,
}

impl Screen {
    pub fn new() -> Self {
        let obeys = env::var_os("TERM").is_some_and(|name| name != "dumb");
        let wanted = obeys && env::var_os("NO_COLOR").is_none_or(|value| value.is_empty());
        let (results, words) = (io::stdout().is_terminal(), io::stderr().is_terminal());
        let progress = (obeys && words && !piped()).then(|| Progress {
            due: Instant::now() + PATIENCE,
            stands: false,
        });
        Self {
            text: Vec::new(),
            result_colours: wanted && results,
            word_colours: wanted && words,
            progress,
        }
    }

    /// Whether the results go to a terminal, which would obey some bytes of them.
    pub fn shows_results(&self) -> bool {
        io::stdout().is_terminal()
    }

    /// The results that are not yet written, to add to.
    pub fn text(&mut self) -> &mut Vec<u8> {
        &mut self.text
    }

    /// Adds a word of the results in a colour.
    pub fn paint(&mut self, colour: Colour, word: &str) {
        paint(&mut self.text, self.result_colours.then_some(colour), word);
    }

    /// Writes results that are bytes and may be many, without a copy of them.
    pub fn put(&mut self, bytes: &[u8]) -> io::Result<()> {
        self.flush()?;
        self.rest();
        let mut results = io::stdout().lock();
        results.write_all(bytes)?;
        results.flush()
    }

    /// Writes the results once there are enough of them.
    pub fn settle(&mut self) -> io::Result<()> {
        if self.text.len() < FULL {
            return Ok(());
        }
        self.flush()
    }

    /// Writes the results.
    pub fn flush(&mut self) -> io::Result<()> {
        if self.text.is_empty() {
            return Ok(());
        }
        self.rest();
        let mut results = io::stdout().lock();
        let written = results.write_all(&self.text).and_then(|()| results.flush());
        self.text.clear();
        written
    }

    /// Says something of an input, behind the results that were found before.
    pub fn tell(&mut self, name: &str, message: &str) -> io::Result<()> {
        self.flush()?;
        self.say(&format!("{name}: {message}"));
        Ok(())
    }

    /// The result where bytes are refused at a place, and why, with a caret under the place.
    pub fn refuse(
        &mut self,
        name: &str,
        bytes: &[u8],
        (place, number): (usize, u32),
        why: &str,
    ) -> io::Result<()> {
        self.paint(Colour::Red, "refused");
        writeln!(self.text, " {place} {number}")?;
        self.tell(name, &format!("{why}\n{}", shown::place(bytes, place)))
    }

    /// Says something. Where standard error is closed, nobody is there to be told.
    pub fn say(&mut self, message: &str) {
        self.rest();
        let red = self.word_colours.then_some(Colour::Red);
        let mut line = Vec::new();
        paint(&mut line, red, "cablefinch:");
        line.push(b' ');
        match message.strip_suffix('^') {
            Some(before) => {
                line.extend_from_slice(before.as_bytes());
                paint(&mut line, red, "^");
            }
            None => line.extend_from_slice(message.as_bytes()),
        }
        line.push(b'\n');
        let _ = io::stderr().lock().write_all(&line);
    }

    /// Shows how far the work on an input is, of how many bytes where that is known.
    pub fn progress(&mut self, name: &str, done: u64, all: Option<u64>) {
        const MEBI: u64 = 1 << 20;
        let Some(progress) = &mut self.progress else {
            return;
        };
        let now = Instant::now();
        if now < progress.due {
            return;
        }
        progress.due = now + PAUSE;
        progress.stands = true;
        let of = match all {
            Some(all) => format!(" of {}", all / MEBI),
            None => String::new(),
        };
        let line = format!("\r\x1b[K{name:.48}: {}{of} MiB", done / MEBI);
        let _ = io::stderr().lock().write_all(line.as_bytes());
    }

    /// Takes the line on the progress away, where it is shown.
    pub fn rest(&mut self) {
        if let Some(progress) = &mut self.progress
            && std::mem::take(&mut progress.stands)
        {
            let _ = io::stderr().lock().write_all(b"\r\x1b[K");
        }
    }
}

fn paint(line: &mut Vec<u8>, colour: Option<Colour>, word: &str) {
    let _ = match colour {
        Some(colour) => write!(line, "\x1b[{}m{word}\x1b[0m", colour as u8),
        None => line.write_all(word.as_bytes()),
    };
}

/// Whether standard output is a pipe, at whose other end a pager may have the terminal.
#[cfg(unix)]
fn piped() -> bool {
    use std::os::fd::AsFd;
    use std::os::unix::fs::FileTypeExt;
    let metadata = io::stdout()
        .as_fd()
        .try_clone_to_owned()
        .and_then(|descriptor| File::from(descriptor).metadata());
    metadata.is_ok_and(|metadata| metadata.file_type().is_fifo())
}

#[cfg(not(unix))]
fn piped() -> bool {
    !io::stdout().is_terminal()
}

/// An error as a person reads it, without the system's number.
pub fn without_number(error: &io::Error) -> String {
    let text = error.to_string();
    match text.split_once(" (os error ") {
        Some((before, _)) => before.to_string(),
        None => text,
    }
}
