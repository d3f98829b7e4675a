//! Behind a socket: why a refusal closes the connection, the probe of the headers, the original's
//! `receive`, packets that are kept, and how much memory a peer can make the crate hold.

use cablefinch::packet::{
    self, Decoder, Mode, Packet, PacketFlags, PacketType, Part, Parts, Ready,
};
use cablefinch::wire::{self, UnversionedValue, Value};
use cablefinch::{Guid, checksum};
use std::io::{self, Read};

const LIMIT: u64 = 1 << 20;

fn message(first: u32, parts: &[Part<'_>]) -> Vec<u8> {
    let mut out = Vec::new();
    let id = Guid::from_parts([first, 0, 0, 0]);
    packet::encode(
        Mode::Live,
        &Packet::message(id, parts.to_vec(), PacketFlags::NONE),
        &mut out,
    )
    .unwrap();
    out
}

#[test]
fn a_part_behind_a_damaged_one_is_no_packet() {
    // A handset wrote part 1, and wrote a whole packet into it.
    let forged = message(0xbad, &[Some(b"a term that nobody sent")]);
    let mut stream = message(1, &[Some(b"header"), Some(&forged)]);
    let honest = stream.len();
    stream.extend(message(2, &[Some(b"the next packet")]));
    assert_eq!(
        packet::decode(Mode::Live, &stream, LIMIT)
            .unwrap()
            .unwrap()
            .consumed,
        honest
    );

    // One bit of part 0 flips on the way. The count of consumed bytes ends with that part, so a
    // reader that dropped them and went on would take the forged packet for one of the sender's.
    let header = honest - forged.len() - b"header".len();
    stream[header] ^= 1;
    let refusal = packet::decode(Mode::Live, &stream, LIMIT).unwrap_err();
    assert_eq!(
        (refusal.code(), refusal.consumed),
        (7, honest - forged.len())
    );
    let taken = packet::decode(Mode::Live, &stream[refusal.consumed..], LIMIT)
        .unwrap()
        .unwrap();
    assert_eq!(taken.packet.id, Guid::from_parts([0xbad, 0, 0, 0]));
}

#[test]
fn every_other_refusal_consumes_nothing() {
    // So a loop that drops what was consumed and goes on meets the same bytes for ever.
    let whole = message(1, &[Some(b"terms")]);
    for (at, code) in [(0, 1), (4, 2), (6, 5), (36, 6)] {
        let mut bytes = whole.clone();
        bytes[at] ^= 0x40;
        let refusal = packet::decode(Mode::Live, &bytes, LIMIT).unwrap_err();
        assert_eq!((refusal.code(), refusal.consumed), (code, 0));
    }
    for (limit, ceiling, code) in [(LIMIT, 0, 3), (60, 1, 8)] {
        let refusal = packet::decode_with(Mode::Live, &whole, limit, ceiling).unwrap_err();
        assert_eq!((refusal.code(), refusal.consumed), (code, 0));
    }
    let mut large = whole;
    large[36..40].copy_from_slice(&((1u32 << 30) + 1).to_le_bytes());
    let sum = checksum(&large[36..48]).to_le_bytes();
    large[48..56].copy_from_slice(&sum);
    let refusal = packet::decode(Mode::Live, &large, LIMIT).unwrap_err();
    assert_eq!((refusal.code(), refusal.consumed), (4, 0));
}

/// The original's `receive`: read until one whole packet is there, and return it.
struct Connection<R> {
    socket: R,
    buffer: Vec<u8>,
    done: usize,
    decoder: Decoder,
}

impl<R: Read> Connection<R> {
    fn receive(&mut self) -> io::Result<Packet<'_>> {
        let size = loop {
            match packet::ready(Mode::Live, &self.buffer[self.done..], LIMIT)
                .map_err(io::Error::other)?
            {
                Ready::Whole(size) => break size,
                Ready::More(least) => self.read(least)?,
            }
        };
        let front = &self.buffer[self.done..self.done + size];
        self.done += size;
        let decoded = self
            .decoder
            .decode(front, LIMIT)
            .map_err(io::Error::other)?;
        Ok(decoded.expect("the packet is whole").packet)
    }

    fn read(&mut self, least: usize) -> io::Result<()> {
        self.buffer.drain(..self.done);
        self.done = 0;
        let start = self.buffer.len();
        self.buffer.resize(start + least, 0);
        self.socket.read_exact(&mut self.buffer[start..])
    }
}

#[test]
fn a_connection_receives_packet_by_packet() {
    let sent = [
        message(1, &[]),
        message(2, &[None, Some(b""), Some(b"x"), None]),
        message(3, &[Some(&[7; 5000])]),
    ];
    let stream = sent.concat();
    let mut connection = Connection {
        socket: &stream[..],
        buffer: Vec::new(),
        done: 0,
        decoder: Decoder::live(),
    };
    for bytes in &sent {
        let expected = packet::decode(Mode::Live, bytes, LIMIT)
            .unwrap()
            .unwrap()
            .packet;
        assert_eq!(connection.receive().unwrap(), expected);
    }
    // No byte was asked for beyond the packets.
    let end = connection.receive().unwrap_err();
    assert_eq!(end.kind(), io::ErrorKind::UnexpectedEof);
}

#[test]
fn the_probe_says_what_decode_will_say() {
    let ack = Packet {
        packet_type: PacketType::Ack,
        flags: PacketFlags::NONE,
        id: Guid::NULL,
        parts: Parts::default(),
    };
    let mut bare = Vec::new();
    packet::encode(Mode::Live, &ack, &mut bare).unwrap();
    let mut with_parts = Vec::new();
    let parts = [None, Some(&b"an Ack with parts"[..])];
    let ack = Packet {
        parts: (&parts).into(),
        ..ack
    };
    packet::encode(Mode::Live, &ack, &mut with_parts).unwrap();
    for whole in [
        bare,
        with_parts,
        message(1, &[]),
        message(1, &[None, None]),
        message(1, &[Some(b""), None, Some(b"twelve bytes"), Some(b"")]),
    ] {
        let size = whole.len();
        for cut in 0..size {
            // Between the bytes that are there and those that are asked for, none makes it whole.
            let Ok(Ready::More(least)) = packet::ready(Mode::Live, &whole[..cut], LIMIT) else {
                panic!("{cut} of {size} bytes");
            };
            assert!(least > 0 && cut + least <= size);
            assert_eq!(
                packet::decode(Mode::Live, &whole[..cut + least - 1], LIMIT),
                Ok(None)
            );
        }
        for tail in [0, 1, 100] {
            let longer = [&whole[..], &vec![0xff; tail]].concat();
            assert_eq!(
                packet::ready(Mode::Live, &longer, LIMIT),
                Ok(Ready::Whole(size))
            );
            let decoded = packet::decode(Mode::Live, &longer, LIMIT).unwrap().unwrap();
            assert_eq!(decoded.consumed, size);
        }
        // Damage anywhere in the headers is refused by both alike.
        for at in 0..size {
            let mut damaged = whole.clone();
            damaged[at] ^= 0x10;
            let decoded = packet::decode(Mode::Live, &damaged, LIMIT);
            match packet::ready(Mode::Live, &damaged, LIMIT) {
                Ok(Ready::Whole(told)) => assert_eq!(told, size),
                Ok(Ready::More(_)) => assert_eq!(decoded, Ok(None)),
                Err(refusal) => assert_eq!(decoded, Err(refusal)),
            }
        }
    }
    // The refusal of a packet that is not there yet in full.
    let large = message(1, &[Some(&[1; 2000])]);
    assert_eq!(
        packet::ready(Mode::Live, &large[..60], 1000)
            .unwrap_err()
            .code(),
        8
    );
    assert_eq!(
        packet::ready_with(Mode::Live, &large[..36], LIMIT, 0)
            .unwrap_err()
            .code(),
        3
    );
}

#[test]
fn ranges_and_owned_packets_need_no_borrow() {
    let sent = [None, Some(&b""[..]), Some(b"one"), Some(b"three"), None];
    let bytes = message(9, &sent);
    let mut decoder = Decoder::live();
    let owned = decoder
        .decode(&bytes, LIMIT)
        .unwrap()
        .unwrap()
        .packet
        .to_owned_packet();
    let ranges: Vec<_> = decoder.ranges().collect();
    let parts: Vec<Part<'_>> = ranges
        .into_iter()
        .map(|range| range.map(|range| &bytes[range]))
        .collect();
    assert_eq!(parts, sent);
    assert_eq!(decoder.decode(&bytes[..50], LIMIT), Ok(None));
    assert_eq!(decoder.ranges().len(), 0);

    let again = owned.clone();
    let mut out = Vec::new();
    packet::encode(Mode::Live, &again.packet(), &mut out).unwrap();
    assert_eq!((out, owned), (bytes, again));
}

#[test]
fn an_encoder_writes_the_same_bytes_again_and_again() {
    let mut encoder = packet::Encoder::live();
    for parts in [
        vec![],
        vec![Some(&b"one"[..]), None, Some(b"two")],
        vec![Some(&[5; 9000][..]), Some(b"")],
        vec![None],
    ] {
        let id = Guid::from_parts([4, 0, 0, 0]);
        let packet = Packet::message(id, parts.clone(), PacketFlags::NONE);
        let expected = message(4, &parts);
        assert_eq!(
            packet::encoded_size(Mode::Live, &packet),
            Ok(expected.len())
        );
        assert_eq!(encoder.encode(&packet), Ok(&expected[..]));
        let mut out = b"before".to_vec();
        assert_eq!(encoder.encode_into(&packet, &mut out), Ok(()));
        assert_eq!(out, [b"before", &expected[..]].concat());
    }
    assert!(encoder.memory() >= 9000);
    encoder.shrink_to(100);
    assert!(encoder.memory() <= 300);

    let mut encoder = wire::Encoder::new();
    for count in [0usize, 3, 500, 1] {
        let values = [
            UnversionedValue::new(0, Value::String(b"by-catch")),
            UnversionedValue::new(1, Value::Uint64(7)),
        ];
        let rows: Vec<_> = (0..count)
            .map(|row| (row % 3 != 1).then_some(values))
            .collect();
        let expected = wire::encode_rowset(&rows).unwrap();
        assert_eq!(encoder.encode_rowset(&rows), Ok(&expected[..]));
        let sizes = rows.iter().map(|row| match row {
            None => 0,
            Some(values) => values.iter().map(UnversionedValue::wire_size).sum(),
        });
        let size: usize = sizes.map(|size: usize| wire::ALIGNMENT + size).sum();
        assert_eq!(expected.len(), wire::ALIGNMENT + size);
    }
    encoder.shrink_to(64);
    assert!(encoder.memory() <= 4 * 64);
}

#[test]
fn a_peer_cannot_make_a_decoder_hold_much() {
    // 64 MiB whose first word declares 2^64-1 rows: refused, and nothing is reserved.
    let mut rowset = vec![0; 64 << 20];
    rowset[..8].fill(0xff);
    let mut decoder = wire::Decoder::new();
    assert_eq!(decoder.decode_rowset(&rowset).unwrap_err().code(), 10);
    assert_eq!(decoder.memory(), 0);
    // As many rows as are allowed, in an input that has no room for them.
    rowset.truncate(4096);
    rowset[..8].copy_from_slice(&wire::MAX_ROWS_PER_ROWSET.to_le_bytes());
    assert!(decoder.decode_rowset(&rowset).is_err());
    assert_eq!(decoder.memory(), 0);
    // As many rows and values as the input could have, and then it is refused.
    let rows = 200u64;
    rowset[..8].copy_from_slice(&rows.to_le_bytes());
    rowset[8..16].copy_from_slice(&1024u64.to_le_bytes());
    assert!(decoder.decode_rowset(&rowset).is_err());
    assert!(decoder.memory() <= 5 * rowset.len());
    decoder.shrink_to(0, 0);
    assert_eq!(decoder.memory(), 0);

    // 65,536 parts are declared and none is there.
    let parts = vec![None; 1 << 16];
    let bytes = message(1, &parts);
    let mut decoder = Decoder::live();
    assert_eq!(decoder.decode(&bytes[..bytes.len() - 1], LIMIT), Ok(None));
    assert_eq!(decoder.memory(), 0);
    assert!(decoder.decode(&bytes, LIMIT).unwrap().is_some());
    assert!((3 << 19..=3 << 20).contains(&decoder.memory()));
    decoder.shrink_to(16);
    assert!(decoder.memory() <= 16 * 24);
}
