//! The tests of error messages: good ones, refused ones, the deepest, and hostile ones.

use super::*;

/// A length-delimited field of bytes shorter than 128.
fn field(tag: u8, bytes: &[u8]) -> Vec<u8> {
    assert!(bytes.len() < 0x80);
    [&[tag, bytes.len() as u8], bytes].concat()
}

/// A dictionary of one attribute.
fn dictionary(key: &[u8], value: &[u8]) -> Vec<u8> {
    let attribute = [field(0x0a, key), field(0x12, value)].concat();
    field(0x1a, &field(0x0a, &attribute))
}

/// So many levels of errors, each with nothing but the next; lengths as long as they must be.
fn nested(levels: usize) -> Vec<u8> {
    (1..levels).fold(Vec::new(), |inner, _| field(0x22, &inner))
}

/// Code, depth and text of each error.
fn told<'a>(error: &TError<'a>) -> Vec<(i32, usize, &'a [u8])> {
    error
        .errors()
        .map(|entry| (entry.code, entry.depth, entry.text))
        .collect()
}

fn pairs<'a>(entry: &ErrorEntry<'_, 'a>) -> Vec<(&'a [u8], &'a [u8])> {
    entry
        .attributes()
        .map(|attribute| (attribute.key, attribute.value))
        .collect()
}

fn sample() -> Vec<u8> {
    [
        b"\x08\xf4\x03".to_vec(),
        field(0x12, b"Lookup failed"),
        dictionary(b"host", b"\x01\x06n42"),
        field(
            0x22,
            &[
                b"\x08\xff\xff\xff\xff\xff\xff\xff\xff\xff\x01".to_vec(),
                field(0x12, "Клетка \"7\"".as_bytes()),
                dictionary(b"pid", b"\x02\xce\x49"),
                dictionary(b"trace", b"[\x06\x07;\x04;#;]"),
                field(0x22, b""),
            ]
            .concat(),
        ),
        field(0x22, b"\x08\x07"),
    ]
    .concat()
}

#[test]
fn errors_in_pre_order_with_their_attributes() {
    let bytes = sample();
    let error = TError::read(&bytes).unwrap();
    assert_eq!(
        told(&error),
        [
            (500, 1, &b"Lookup failed"[..]),
            (-1, 2, "Клетка \"7\"".as_bytes()),
            (0, 3, b""),
            (7, 2, b""),
        ]
    );
    let found: Vec<_> = error.errors().map(|entry| pairs(&entry)).collect();
    assert_eq!(found[0], [(&b"host"[..], &b"\x01\x06n42"[..])]);
    assert_eq!(found[1].len(), 2);
    assert!(found[2].is_empty() && found[3].is_empty());
    let inner = error.errors().nth(1).unwrap();
    assert_eq!(inner.get(b"pid"), Some(&b"\x02\xce\x49"[..]));
    assert_eq!(inner.get(b"host"), None);
    assert_eq!(error.outermost(), error.errors().next().unwrap());
    assert_eq!(error.bytes(), bytes);
}

#[test]
fn it_prints_as_a_person_reads_it() {
    let bytes = sample();
    let error = TError::read(&bytes).unwrap();
    let text = "\
error 500: Lookup failed
    host = \"n42\"
    error -1: Клетка \"7\"
        pid = 4711
        trace = [7u; %false; #; ]
        error 0
    error 7";
    assert_eq!(error.to_string(), text);
    assert_eq!(
        error.outermost().to_string(),
        "error 500: Lookup failed\n    host = \"n42\""
    );
}

#[test]
fn what_prints_is_a_line_each() {
    let odd = "a\n\u{1b}[31m\u{202e}b\u{2028}\u{85}\\\"\0".as_bytes();
    let bytes = [
        field(0x12, &[odd, b"\xff\xc3"].concat()),
        dictionary(odd, b"not\nYSON"),
        dictionary(b"s", b"\x01\x0c\"\\\n\xffab"),
        dictionary(
            b"m",
            b"<\x01\x02a=\x05>{\x01\x02b=\x03\x00\x00\x00\x00\x00\x00\xf8\x3f}",
        ),
        dictionary(b"", b""),
    ]
    .concat();
    let text = TError::read(&bytes).unwrap().to_string();
    let lines: Vec<_> = text.split('\n').collect();
    let shown = "a\\n\\u{1b}[31m\\u{202e}b\\u{2028}\\u{85}\\\"\\u{0}";
    assert_eq!(
        lines,
        [
            &format!("error 0: {shown}\\xff\\xc3"),
            &format!("    {shown} = not\\nYSON"),
            "    s = \"\\\"\\\\\\n\\xffab\"",
            "    m = <\"a\" = %true>{\"b\" = 1.5}",
            "     = ",
        ]
    );
}

#[test]
fn absent_is_empty_and_the_last_counts() {
    assert_eq!(told(&TError::read(b"").unwrap()), [(0, 1, &b""[..])]);
    let bytes = b"\x08\x01\x12\x01a\x08\x85\x80\x80\x80\x10\x12\x00";
    assert_eq!(told(&TError::read(bytes).unwrap()), [(5, 1, &b""[..])]);
}

#[test]
fn attributes_behind_an_inner_error_keep_their_error() {
    // The outermost error's dictionaries stand before and behind those of its inner errors.
    let inner = |key: &[u8]| [dictionary(key, b"1"), dictionary(key, b"2")].concat();
    let bytes = [
        dictionary(b"a", b"1"),
        field(0x22, &inner(b"b")),
        dictionary(b"a", b"2"),
        field(0x22, &[]),
        field(0x22, &inner(b"c")),
        dictionary(b"a", b"3"),
    ]
    .concat();
    let error = TError::read(&bytes).unwrap();
    let found: Vec<_> = error.errors().map(|entry| pairs(&entry)).collect();
    let expected = |key: &'static [u8], count: usize| -> Vec<(&[u8], &[u8])> {
        [&b"1"[..], b"2", b"3"]
            .into_iter()
            .take(count)
            .map(|value| (key, value))
            .collect()
    };
    assert_eq!(found[0], expected(b"a", 3));
    assert_eq!(found[1], expected(b"b", 2));
    assert!(found[2].is_empty());
    assert_eq!(found[3], expected(b"c", 2));
}

#[test]
fn a_refusal_says_where() {
    for (input, place) in [
        (&b"\x08"[..], 0),
        (b"\x08\x01\x0a", 2),
        (b"\x0a\x00", 0),
        (b"\x0b", 0),
        (b"\x08\x01\x00\x00", 2),
        (b"\x12\x02a", 0),
        (b"\x22\x03\x12\x02ab", 2),
        (b"\x1a\x02\x0a\x01", 2),
        (b"\x08\xff\xff\xff\xff\xff\xff\xff\xff\xff\x02", 0),
        (b"\x80\x80\x80\x80\x10", 0),
    ] {
        let refusal = TError::read(input).unwrap_err();
        assert_eq!(refusal, ErrorRefusal::BadMessage { place }, "{input:?}");
        assert_eq!((refusal.code(), refusal.place()), (22, Some(place)));
        assert!(refusal.to_string().contains(&format!("byte {place}")));
    }
}

#[test]
fn sixteen_levels_and_no_more() {
    let bytes = nested(MAX_DEPTH);
    let error = TError::read(&bytes).unwrap();
    assert_eq!(error.errors().len(), MAX_DEPTH);
    assert!(
        error
            .errors()
            .zip(1..)
            .all(|(entry, depth)| entry.depth == depth)
    );
    let bytes = nested(MAX_DEPTH + 1);
    let refusal = TError::read(&bytes).unwrap_err();
    assert_eq!(refusal, ErrorRefusal::ErrorsTooDeep { place: 30 });
    assert_eq!((refusal.code(), refusal.place()), (23, Some(30)));
}

#[test]
fn what_is_written_reads_back() {
    let attributes = [
        Attribute {
            key: b"host",
            value: b"\x01\x06n42",
        },
        Attribute {
            key: b"",
            value: b"",
        },
    ];
    let new = |depth, code, text, attributes| NewError {
        depth,
        code,
        text,
        attributes,
    };
    let errors = [
        new(1, i32::MIN, &b"outer"[..], &attributes[..]),
        new(2, 0, b"", &[]),
        new(3, -1, b"\xff\x00", &attributes[..1]),
        new(2, i32::MAX, b"outer", &attributes[1..]),
    ];
    let bytes = encode(&errors).unwrap();
    assert_eq!(encoded_size(&errors), Ok(bytes.len()));
    let read = TError::read(&bytes).unwrap();
    assert_eq!(read.errors().len(), errors.len());
    for (entry, error) in read.errors().zip(&errors) {
        assert_eq!(
            (entry.code, entry.depth, entry.text),
            (error.code, error.depth, error.text)
        );
        assert!(entry.attributes().eq(error.attributes.iter().copied()));
    }
    assert_eq!(read.encode().unwrap(), bytes);
    assert_eq!(read.encoded_size(), Ok(bytes.len()));

    let mut out = b"kept".to_vec();
    encode_into(&errors, &mut out).unwrap();
    assert_eq!(out, [b"kept", &bytes[..]].concat());
}

#[test]
fn what_was_read_is_written_in_one_form() {
    // An unknown field, an overlong code, two dictionaries, attributes behind an inner error.
    let bytes = [
        b"\x28\x01\x08\x80\x00".to_vec(),
        field(0x22, &dictionary(b"k", b"#")),
        dictionary(b"a", b"1"),
        dictionary(b"b", b"2"),
    ]
    .concat();
    let read = TError::read(&bytes).unwrap();
    let form = read.encode().unwrap();
    let expected = [
        &b"\x08\x00\x12\x00\x1a\x10\x0a\x06\x0a\x01a\x12\x011\x0a\x06\x0a\x01b\x12\x012"[..],
        b"\x22\x0e\x08\x00\x12\x00\x1a\x08\x0a\x06\x0a\x01k\x12\x01#",
    ]
    .concat();
    assert_eq!(form, expected);
    let again = TError::read(&form).unwrap();
    assert_eq!(told(&again), told(&read));
    assert_eq!(again.to_string(), read.to_string());
    assert_eq!(again.encode().unwrap(), form);
}

#[test]
fn errors_that_are_no_message_are_refused() {
    let at = |depth| NewError {
        depth,
        code: 0,
        text: b"",
        attributes: &[],
    };
    let bad = |rule, position| Err(ErrorRefusal::BadTable { rule, position });
    let deep: Vec<_> = (1..=MAX_DEPTH + 1).map(at).collect();
    for (errors, refusal) in [
        (&[][..], bad(2, 0)),
        (&[at(2)], bad(3, 0)),
        (&[at(0)], bad(3, 0)),
        (&[at(1), at(1)], bad(3, 1)),
        (&[at(1), at(3)], bad(3, 1)),
        (&[at(1), at(2), at(3), at(5)], bad(3, 3)),
        (&deep, bad(3, MAX_DEPTH)),
        (&[at(1), at(usize::MAX)], bad(3, 1)),
    ] {
        assert_eq!(encoded_size(errors).map(|_| ()), refusal);
        let mut out = b"kept".to_vec();
        assert_eq!(encode_into(errors, &mut out), refusal);
        assert_eq!(out, b"kept");
        assert_eq!(refusal.unwrap_err().code(), 18);
    }
    assert_eq!(
        encode(&deep[..MAX_DEPTH]).map(|bytes| bytes.len()),
        encoded_size(&deep[..MAX_DEPTH])
    );
}

#[test]
fn hostile_messages_hold_little() {
    const BYTES: usize = 1 << 20;
    // Two bytes an inner error: the most that a message can make of its bytes.
    let empty_errors = b"\x22\x00".repeat(BYTES / 2);
    let error = TError::read(&empty_errors).unwrap();
    assert_eq!(error.errors().len(), 1 + BYTES / 2);
    assert!(error.memory() <= 20 * BYTES, "{}", error.memory());
    // Two bytes an attribute, in one dictionary.
    let mut empty_attributes = b"\x1a\x80\x80\x40".to_vec();
    empty_attributes.extend(b"\x0a\x00".repeat(BYTES / 2));
    let error = TError::read(&empty_attributes).unwrap();
    assert_eq!(error.outermost().attributes().len(), BYTES / 2);
    assert!(error.memory() <= 20 * BYTES + 4096, "{}", error.memory());

    // Within a bound they are refused, and say how many there are.
    let refusal = TError::read_within(&empty_errors, 1000, 1000).unwrap_err();
    let count = 1 + BYTES / 2;
    assert_eq!(refusal, ErrorRefusal::TooManyErrors { count, limit: 1000 });
    let refusal = TError::read_within(&empty_attributes, 1000, 1000).unwrap_err();
    let count = BYTES / 2;
    assert_eq!(
        refusal,
        ErrorRefusal::TooManyAttributes { count, limit: 1000 }
    );
    assert_eq!(refusal.code(), 17);
    // A bound that is just enough is enough.
    let error = TError::read_within(&empty_attributes, 1, BYTES / 2).unwrap();
    assert_eq!(error.errors().len(), 1);

    // Lengths that say more than there is.
    for length in [
        &b"\xff\xff\xff\xff\x0f"[..],
        b"\xff\xff\xff\xff\xff\xff\xff\xff\xff\x01",
    ] {
        for tag in [0x12, 0x1a, 0x22, 0x2a] {
            let bytes = [&[tag], length].concat();
            let refusal = TError::read(&bytes).unwrap_err();
            assert_eq!(refusal, ErrorRefusal::BadMessage { place: 0 });
        }
    }
}

#[test]
fn any_bytes_have_an_answer() {
    // Every cut and every flipped bit of a message; what is read prints and is written.
    let bytes = sample();
    for keep in 0..=bytes.len() {
        let _ = TError::read(&bytes[..keep]).map(|error| error.to_string());
    }
    for bit in 0..8 * bytes.len() {
        let mut bytes = bytes.clone();
        bytes[bit / 8] ^= 1 << (bit % 8);
        if let Ok(error) = TError::read(&bytes) {
            let form = error.encode().unwrap();
            let again = TError::read(&form).unwrap();
            assert_eq!(again.to_string(), error.to_string());
            assert_eq!(told(&again), told(&error));
        }
    }
}
