//! The code of both READMEs, which is the file `readme/service.rs`, run over the samples.

use cablefinch::packet::{self, Guard, Refusal};
use std::error::Error;
use std::io::{self, Read};

#[path = "readme/service.rs"]
mod service;

/// A connection that gives some bytes at a time.
struct Slowly<'a>(&'a [u8], usize);

impl Read for Slowly<'_> {
    fn read(&mut self, room: &mut [u8]) -> io::Result<usize> {
        let count = self.1.min(room.len());
        self.0.read(&mut room[..count])
    }
}

/// A line for each packet and part that is received, and how the connection ended.
fn heard(input: &[u8], step: usize) -> (Vec<String>, Result<(), Box<dyn Error>>) {
    let mut lines = Vec::new();
    let end = service::serve(Slowly(input, step), |packet| {
        let (kind, flags) = (packet.packet_type as u16, packet.flags.0);
        lines.push(format!(
            "{kind} {flags} {} {}",
            packet.id,
            packet.parts.len()
        ));
        for (index, part) in packet.parts.iter().enumerate() {
            lines.push(match (part, packet.parts.guard(index)) {
                (None, _) => format!("part {index} null"),
                (Some(part), Some(Guard::Guarded(_))) => {
                    format!("part {index} {} guarded", part.len())
                }
                (Some(part), _) => format!("part {index} {} bare", part.len()),
            });
        }
        Ok(())
    });
    (lines, end)
}

#[test]
fn the_readmes_show_this_file() {
    let block = format!("```rust\n{}```\n", include_str!("readme/service.rs"));
    assert!(include_str!("../README.md").contains(&block));
    assert!(include_str!("../../README.md").contains(&block));
}

#[test]
fn every_sample_is_served_as_its_text_says() {
    let samples: [(&[u8], &str); 4] = [
        (
            include_bytes!("../../samples/good.bin"),
            include_str!("../../samples/good.txt"),
        ),
        (
            include_bytes!("../../samples/damaged.bin"),
            include_str!("../../samples/damaged.txt"),
        ),
        (
            include_bytes!("../../samples/cut.bin"),
            include_str!("../../samples/cut.txt"),
        ),
        (
            include_bytes!("../../samples/terms.bin"),
            include_str!("../../samples/terms.txt"),
        ),
    ];
    for (input, text) in samples {
        // `list` also prints where a packet begins, and how the input ends. It reads an archive; the
        // service, on a live socket, ends with 24 at an SslAck.
        let mut told: Vec<String> = text.lines().map(str::to_string).collect();
        let mut last = told.pop().unwrap();
        for line in &mut told {
            if let Some(rest) = line.strip_prefix("packet ") {
                *line = rest.split_once(' ').unwrap().1.to_string();
            }
        }
        if let Some(at) = told.iter().position(|line| line.starts_with("2 ")) {
            told.truncate(at);
            last = "refused 24".to_string();
        }
        for step in [1, 7, 100, 1 << 20] {
            let (lines, end) = heard(input, step);
            assert_eq!(lines, told);
            match (last.split(' ').next(), end) {
                (Some("end"), Ok(())) => {}
                (Some("more"), Err(error)) => {
                    assert_eq!(error.to_string(), "the connection ended inside a packet");
                }
                (Some("refused"), Err(error)) => {
                    let refusal = error.downcast_ref::<Refusal>().unwrap();
                    assert!(last.ends_with(&format!(" {}", refusal.code())));
                }
                (_, end) => panic!("{last}, and it ended with {end:?}"),
            }
        }
    }
}

#[test]
fn each_key_keeps_its_term() {
    let mut answers = Vec::new();
    let input = &include_bytes!("../../samples/terms.bin")[..];
    service::serve(input, |packet| {
        for part in &packet.parts {
            answers.push(match part {
                None => None,
                Some(part) => Some(service::terms(part)?),
            });
        }
        Ok(())
    })
    .unwrap();
    let some = |text: &str| Some(text.to_string());
    assert_eq!(
        answers,
        [
            Some(vec![
                some("by-catch"),
                None,
                None,
                some("quota"),
                some(""),
                some("trawler")
            ]),
            None,
            Some(vec![]),
            Some(vec![None, some("gum line"), None]),
        ]
    );
}

#[test]
fn many_small_packets_in_one_read() {
    let ack = packet::Packet {
        packet_type: packet::PacketType::Ack,
        flags: packet::PacketFlags::NONE,
        id: cablefinch::Guid::NULL,
        parts: packet::Parts::default(),
    };
    let mut one = Vec::new();
    packet::encode(packet::Mode::Live, &ack, &mut one).unwrap();
    let input = one.repeat(80_000);
    let (lines, end) = heard(&input, usize::MAX);
    assert_eq!(lines.len(), 80_000);
    assert!(end.is_ok());
}
