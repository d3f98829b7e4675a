use super::*;

fn message(parts: &[Part<'_>]) -> Vec<u8> {
    let mut out = Vec::new();
    let packet = Packet::message(
        Guid::from_parts([1, 2, 3, 4]),
        parts.to_vec(),
        PacketFlags(9),
    );
    assert_eq!(encode(Mode::Archive, &packet, &mut out), Ok(()));
    assert_eq!(encoded_size(Mode::Archive, &packet), Ok(out.len()));
    out
}

#[test]
fn null_and_empty_parts_stay_apart() {
    let bytes = message(&[None, Some(b""), Some(b"x"), Some(b"yz")]);
    let decoded = decode(Mode::Archive, &bytes, 1 << 20).unwrap().unwrap();
    assert_eq!(decoded.consumed, bytes.len());
    let parts: Vec<Part<'_>> = decoded.packet.parts.iter().collect();
    assert_eq!(parts, [None, Some(&b""[..]), Some(b"x"), Some(b"yz")]);
    assert_eq!(decoded.packet.parts.get(4), None);
    assert_eq!(decoded.packet.parts.get(usize::MAX), None);
}

#[test]
fn every_strict_prefix_needs_more() {
    let bytes = message(&[Some(b"terms"), None]);
    for cut in 0..bytes.len() {
        assert_eq!(decode(Mode::Archive, &bytes[..cut], 1 << 20), Ok(None));
    }
}

#[test]
fn a_decoder_grows_and_is_used_again() {
    let mut decoder = Decoder::archive();
    for n in [0, 1, 16, 17, 1000, 3, 0] {
        let parts = vec![Some(&b"part"[..]); n];
        let bytes = message(&parts);
        let decoded = decoder.decode(&bytes, 1 << 20).unwrap().unwrap();
        assert_eq!(decoded.packet.parts.len(), n);
        assert_eq!(decoded.packet.parts, Parts::from(parts));
    }
}

#[test]
fn damage_names_its_part() {
    let mut bytes = message(&[Some(b"one"), Some(b"two"), Some(b"three")]);
    let at = bytes.len() - 6;
    bytes[at] ^= 1;
    let refusal = decode(Mode::Archive, &bytes, 1 << 20).unwrap_err();
    assert_eq!((refusal.code(), refusal.consumed), (7, bytes.len() - 5));
    assert!(refusal.to_string().starts_with("part 1 checksum mismatch"));
    assert!(matches!(
        PacketError::from(refusal),
        PacketError::PartChecksum { index: 1, .. }
    ));
}

#[test]
fn refusals_have_their_numbers() {
    let bytes = message(&[Some(b"terms")]);
    let with = |at: usize, byte: u8| {
        let mut bytes = bytes.clone();
        bytes[at] = byte;
        decode(Mode::Archive, &bytes, 1 << 20).unwrap_err().code()
    };
    assert_eq!(with(0, 0), 1);
    assert_eq!(with(4, 3), 2);
    assert_eq!(with(6, 0), 5);
    assert_eq!(with(36, 0), 6);
    let limited = decode(Mode::Archive, &bytes, 60).unwrap_err();
    assert_eq!(
        limited.error,
        PacketError::MessageTooLarge {
            size: 61,
            limit: 60
        }
    );
    assert_eq!(
        decode_with(Mode::Archive, &bytes, 61, 0)
            .unwrap_err()
            .code(),
        3
    );
    assert!(decode_with(Mode::Archive, &bytes, 61, 1).unwrap().is_some());
}

#[test]
fn a_decoded_packet_is_written_again() {
    let bytes = message(&[None, Some(b"header"), Some(b"")]);
    let packet = decode(Mode::Archive, &bytes, 1 << 20)
        .unwrap()
        .unwrap()
        .packet;
    let mut out = b"before".to_vec();
    assert_eq!(validate(Mode::Archive, &packet), Ok(()));
    assert_eq!(encode(Mode::Archive, &packet, &mut out), Ok(()));
    assert_eq!(out, [b"before", &bytes[..]].concat());
    assert_eq!(part_checksum(None), 0);
    assert_eq!(part_checksum(Some(&[1])), 0xe543_2797_6592_7881);
}

#[test]
fn a_part_tells_whether_it_was_guarded() {
    let mut bytes = message(&[None, Some(b"term"), Some(b"")]);
    let guards = |bytes: &[u8]| {
        let parts = decode(Mode::Live, bytes, 1 << 20)
            .unwrap()
            .unwrap()
            .packet
            .parts;
        [0, 1, 2, 3].map(|index| parts.guard(index))
    };
    let sum = part_checksum(Some(b"term"));
    let bare = Some(Guard::Bare);
    assert_eq!(
        guards(&bytes),
        [None, Some(Guard::Guarded(sum)), bare, None]
    );
    // The same packet from a sender that stores no checksums.
    bytes[28..36].fill(0);
    bytes[48..80].fill(0);
    assert_eq!(guards(&bytes), [None, bare, bare, None]);
    let made = Parts::from(vec![Some(&b"term"[..])]);
    assert_eq!(made.guard(0), None);
}

#[test]
fn parts_outlive_the_packet() {
    let bytes = message(&[Some(b"kept")]);
    let kept = {
        let decoded = decode(Mode::Archive, &bytes, 1 << 20).unwrap().unwrap();
        decoded.packet.parts.get(0).flatten()
    };
    assert_eq!(kept, Some(&b"kept"[..]));
}

#[test]
fn flags() {
    let both = PacketFlags(3);
    assert!(both.contains(PacketFlags::REQUEST_ACKNOWLEDGEMENT));
    assert!(both.contains(PacketFlags::NONE));
    assert!(!PacketFlags::NONE.contains(both));
}

#[test]
fn an_ssl_ack_is_an_archive_s_alone() {
    for parts in [vec![], vec![Some(&b"one"[..]), Some(b"two")]] {
        let retired = PacketError::RetiredType(2);
        let packet = Packet {
            packet_type: PacketType::SslAck,
            flags: PacketFlags::NONE,
            id: Guid::NULL,
            parts: parts.into(),
        };
        let mut bytes = Vec::new();
        assert_eq!(encode(Mode::Live, &packet, &mut bytes), Err(retired));
        assert_eq!(bytes, []);
        assert_eq!(validate(Mode::Live, &packet), Err(retired));
        assert_eq!(encoded_size(Mode::Live, &packet), Err(retired));
        assert_eq!(Encoder::live().encode(&packet), Err(retired));
        encode(Mode::Archive, &packet, &mut bytes).unwrap();
        assert_eq!(Encoder::archive().encode(&packet), Ok(&bytes[..]));

        let read = decode(Mode::Archive, &bytes, 1 << 20).unwrap().unwrap();
        assert_eq!(read.packet, packet);
        assert_eq!(validate(Mode::Live, &read.packet), Err(retired));
        assert_eq!(Encoder::live().encode(&read.packet), Err(retired));
        let refusal = Decoder::live().decode(&bytes, 1 << 20).unwrap_err();
        let (error, consumed) = (retired, 0);
        assert_eq!(refusal, Refusal { error, consumed });
        assert_eq!(refusal.code(), 24);
        assert_eq!(ready(Mode::Live, &bytes, 1 << 20), Err(refusal));
        assert_eq!(decode(Mode::Live, &bytes[..35], 1 << 20), Ok(None));
    }
}
