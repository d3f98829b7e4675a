//! Reads packets from a file, or from standard input, and prints each event's GUID with its term
//! rows: the rows of each part that is a rowset, the length of each that is not.
//!
//!     cargo run --example sync ../samples/good.bin

use cablefinch::{packet, wire};
use std::error::Error;
use std::fs::File;
use std::io::{self, Read, Write};
use std::process::ExitCode;

/// The most bytes that a packet may have here.
const LIMIT: u64 = 1 << 26;

fn main() -> ExitCode {
    match run() {
        Ok(()) => ExitCode::SUCCESS,
        Err(error) => {
            eprintln!("sync: {error}");
            ExitCode::FAILURE
        }
    }
}

fn run() -> Result<(), Box<dyn Error>> {
    let mut input: Box<dyn Read> = match std::env::args_os().nth(1) {
        Some(path) => Box::new(File::open(path)?),
        None => Box::new(io::stdin().lock()),
    };
    let mut output = io::stdout().lock();
    let mut packets = packet::Decoder::archive();
    let mut rowsets = wire::Decoder::new();
    let mut buffer = Vec::new();
    let mut chunk = vec![0; 1 << 16];
    loop {
        let read = input.read(&mut chunk)?;
        if read == 0 {
            break;
        }
        buffer.extend_from_slice(&chunk[..read]);
        let mut done = 0;
        while let Some(decoded) = packets.decode(&buffer[done..], LIMIT)? {
            print(&mut output, &decoded.packet, &mut rowsets)?;
            done += decoded.consumed;
        }
        buffer.drain(..done);
    }
    match buffer.len() {
        0 => Ok(()),
        rest => Err(format!("the input ends inside a packet, {rest} bytes into it").into()),
    }
}

fn print(
    output: &mut impl Write,
    packet: &packet::Packet<'_>,
    rowsets: &mut wire::Decoder,
) -> io::Result<()> {
    writeln!(output, "{} {:?}", packet.id, packet.packet_type)?;
    for (index, part) in packet.parts.iter().enumerate() {
        let Some(part) = part else {
            writeln!(output, "  part {index}: null")?;
            continue;
        };
        let Ok(rowset) = rowsets.decode_rowset(part) else {
            writeln!(output, "  part {index}: {} bytes", part.len())?;
            continue;
        };
        writeln!(output, "  part {index}: {} rows", rowset.len())?;
        for (number, row) in rowset.rows().enumerate() {
            write!(output, "    row {number}:")?;
            match row {
                None => write!(output, " null")?,
                Some(row) => {
                    for value in row.values() {
                        write!(output, " {}=", value.id)?;
                        match value.value.bytes() {
                            Some(bytes) => write!(output, "\"{}\"", bytes.escape_ascii())?,
                            None => write!(output, "{:?}", value.value)?,
                        }
                    }
                }
            }
            writeln!(output)?;
        }
    }
    Ok(())
}
