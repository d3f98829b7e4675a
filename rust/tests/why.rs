//! The stored samples of the program `why`, told by the crate.

use cablefinch::packet::Mode;
use cablefinch::why;
use std::fs;
use std::path::Path;

/// Each sample with a good first line and at most 65,536 bytes behind it is told as the program tells it.
#[test]
fn samples_are_told_as_by_the_program() {
    let folder = Path::new(env!("CARGO_MANIFEST_DIR")).join("../crates/why_samples");
    let stored = fs::read_to_string(folder.join("stdout")).expect("the stored lines are there");
    let mut lines = stored.lines();
    let mut told = 0;
    while let (Some(name), Some(line)) = (lines.next(), lines.next()) {
        let name = name.strip_prefix("== ").expect("a line with a name");
        let input = fs::read(folder.join("data").join(name)).expect("the sample is there");
        if line == "bad input" {
            continue;
        }
        let found = match input.split_at(7) {
            (b"packet\n", bytes) => why::packet(Mode::Archive, bytes, 65_536, 2_048),
            (b"rowset\n", bytes) => why::rowset(bytes),
            _ => panic!("{name}: another first line"),
        };
        assert_eq!(found.to_string(), line, "{name}");
        told += 1;
    }
    assert!(told > 30);
}

/// In live mode a retired type is refused, and what is wanted is a list.
#[test]
fn a_retired_type_is_told() {
    let mut packet = [0u8; 36];
    packet[..4].copy_from_slice(&0x7861_6d4f_u32.to_le_bytes());
    packet[4] = 2;
    assert_eq!(
        why::packet(Mode::Live, &packet, 0, 0).to_string(),
        "refused 24 type 4 2 0-1"
    );
    assert_eq!(why::packet(Mode::Archive, &packet, 0, 0), why::Why::Fine);
}
