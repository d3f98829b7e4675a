//! The original's shape: packets leave the front of a `BytesMut`, and their parts share its memory.

use bytes::{Bytes, BytesMut};
use cablefinch_bytes::bus::packet::{self, Packet, PacketError, PacketFlags, PacketType};
use cablefinch_bytes::guid::Guid;

const LIMIT: u64 = 1 << 20;

fn sent() -> Packet {
    let parts = vec![
        None,
        Some(Bytes::new()),
        Some(Bytes::from_static(b"a term")),
        Some(Bytes::from_static(b"another")),
    ];
    Packet::message(Guid::from_parts([1, 2, 3, 4]), parts, PacketFlags(9))
}

#[test]
fn packets_come_back_and_the_rest_stays() {
    let mut buffer = BytesMut::from(&b""[..]);
    packet::encode(&sent(), &mut buffer).unwrap();
    let size = buffer.len();
    assert_eq!(packet::encoded_size(&sent()), size);
    let ack = Packet {
        packet_type: PacketType::Ack,
        parts: Vec::new(),
        ..sent()
    };
    packet::encode(&ack, &mut buffer).unwrap();
    buffer.extend_from_slice(b"rest");

    let memory = buffer.as_ptr() as usize..buffer.as_ptr() as usize + buffer.len();
    let read = packet::decode(&mut buffer, LIMIT).unwrap().unwrap();
    assert_eq!(read, sent());
    assert!(memory.contains(&(read.parts[2].as_ref().unwrap().as_ptr() as usize)));
    assert_eq!(packet::decode(&mut buffer, LIMIT), Ok(Some(ack)));
    assert_eq!(packet::decode(&mut buffer, LIMIT), Ok(None));
    assert_eq!(buffer, b"rest"[..]);
}

#[test]
fn a_refusal_removes_what_the_original_removes() {
    let mut whole = BytesMut::new();
    packet::encode(&sent(), &mut whole).unwrap();
    let parts = b"a termanother".len();
    let mut damaged = whole.clone();
    let at = whole.len() - parts;
    damaged[at] ^= 1;
    let error = packet::decode(&mut damaged, LIMIT).unwrap_err();
    assert!(matches!(error, PacketError::PartChecksum { index: 2, .. }));
    assert_eq!(damaged, b"another"[..]);

    let mut foreign = whole.clone();
    foreign[0] ^= 1;
    assert!(packet::decode(&mut foreign, LIMIT).is_err());
    assert_eq!(foreign.len(), whole.len());
    assert_eq!(packet::part_checksum(None), packet::NULL_CHECKSUM);
}
