//! Files and standard input, read in pieces or whole.

use crate::arguments::STANDARD_INPUT;
use crate::screen::{Screen, without_number};
use crate::{Stop, Verdict, shown};
use cablefinch::packet::MAX_PART_SIZE;
use std::ffi::{OsStr, OsString};
use std::fs::File;
use std::io::{self, Read};

/// How many bytes are read at a time.
pub const PIECE: usize = 1 << 20;

/// An input that was opened.
pub struct Input {
    /// Its name in results.
    pub name: String,
    source: Box<dyn Read>,
    /// Its bytes, where they are known before they are read.
    length: Option<u64>,
    /// How many were read.
    done: u64,
}

impl Input {
    /// Opens a file, or standard input.
    pub fn open(operand: &OsStr) -> Result<Self, Stop> {
        if operand == STANDARD_INPUT {
            return Ok(Self {
                name: STANDARD_INPUT.to_string(),
                source: Box::new(io::stdin().lock()),
                length: None,
                done: 0,
            });
        }
        let name = shown::name(operand);
        let opened = File::open(operand).and_then(|file| Ok((file.metadata()?, file)));
        match opened {
            Ok((metadata, _)) if metadata.is_dir() => Err(Stop::Input(format!(
                "{name}: it is a folder: give the files in it"
            ))),
            Ok((metadata, file)) => Ok(Self {
                name,
                source: Box::new(file),
                length: metadata.is_file().then_some(metadata.len()),
                done: 0,
            }),
            Err(error) => Err(Stop::Input(format!(
                "{name}: it cannot be opened: {}; look at its name and its rights",
                without_number(&error)
            ))),
        }
    }

    /// Its name in words about it.
    pub fn told(&self) -> &str {
        match &*self.name {
            STANDARD_INPUT => "standard input",
            name => name,
        }
    }

    /// Reads into `room`, and tells how many bytes: 0 where the input is at its end.
    pub fn read(&mut self, room: &mut [u8], screen: &mut Screen) -> Result<usize, Stop> {
        loop {
            match self.source.read(room) {
                Ok(count) => {
                    self.done += count as u64;
                    screen.progress(self.told(), self.done, self.length);
                    return Ok(count);
                }
                Err(error) if error.kind() == io::ErrorKind::Interrupted => {}
                Err(error) => {
                    return Err(Stop::Input(format!(
                        "{}: it cannot be read beyond byte {}: {}",
                        self.told(),
                        self.done,
                        without_number(&error)
                    )));
                }
            }
        }
    }

    /// Reads until the end, but no more than `most` bytes.
    pub fn whole(&mut self, most: usize, screen: &mut Screen) -> Result<Vec<u8>, Stop> {
        let mut bytes = Vec::new();
        // One byte more than a file has, so that its end is seen without growing.
        let length = self.length.unwrap_or(0).saturating_add(1);
        let room = usize::try_from(length).unwrap_or(usize::MAX).min(most);
        self.grow(&mut bytes, room)?;
        let mut end = 0;
        while end < most {
            if end == bytes.len() {
                let room = bytes.len().saturating_mul(2).clamp(PIECE, most.max(PIECE));
                self.grow(&mut bytes, room)?;
            }
            let till = end.saturating_add(PIECE).min(bytes.len());
            match self.read(&mut bytes[end..till], screen)? {
                0 => break,
                count => end += count,
            }
        }
        bytes.truncate(end);
        Ok(bytes)
    }

    /// Reads all that a packet's part could hold; longer input is none.
    pub fn part(&mut self, screen: &mut Screen) -> Result<Vec<u8>, Stop> {
        const MOST: usize = MAX_PART_SIZE as usize;
        let bytes = self.whole(MOST + 1, screen)?;
        if bytes.len() > MOST {
            return Err(Stop::Input(format!(
                "{}: it has more than the {MOST} bytes of a packet's part: is it the right file?",
                self.told()
            )));
        }
        Ok(bytes)
    }

    /// Makes a buffer so long.
    pub fn grow(&self, bytes: &mut Vec<u8>, length: usize) -> Result<(), Stop> {
        let more = length.saturating_sub(bytes.len());
        if bytes.try_reserve_exact(more).is_err() {
            return Err(Stop::Input(format!(
                "{}: there is no memory for {length} bytes of it: end other programs, or use a larger machine",
                self.told()
            )));
        }
        bytes.resize(length.max(bytes.len()), 0);
        Ok(())
    }
}

/// Does some work on each file that was named. One that cannot be read is told of, and the others are
/// worked on all the same.
pub fn each(
    files: &[OsString],
    screen: &mut Screen,
    mut work: impl FnMut(Input, &mut Screen) -> Result<Verdict, Stop>,
) -> Result<Verdict, Stop> {
    let mut worst = Verdict::Right;
    for file in files {
        let verdict = match Input::open(file).and_then(|input| work(input, screen)) {
            Err(Stop::Input(message)) => {
                screen.flush()?;
                screen.say(&message);
                Verdict::Unread
            }
            other => other?,
        };
        worst = worst.max(verdict);
    }
    Ok(worst)
}
