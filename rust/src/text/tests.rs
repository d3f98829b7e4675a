use super::*;
use crate::wire::{self, Value};

type Rows<'a> = Vec<Option<Vec<UnversionedValue<'a>>>>;

fn owned<'a>(rowset: &Rowset<'a>) -> Rows<'a> {
    rowset
        .rows()
        .map(|row| row.map(|row| row.values().collect()))
        .collect()
}

/// Rows with every type, null and empty rows between them, and each byte that there is.
fn example(bytes: &[u8]) -> Rows<'_> {
    let values = [
        Value::Null,
        Value::Int64(-1),
        Value::Uint64(10),
        Value::Double(1.0),
        Value::Boolean(true),
        Value::String(b""),
        Value::Any(b"#"),
        Value::Composite(bytes),
    ];
    let row: Vec<_> = values
        .into_iter()
        .zip([0, 9, 10, 65_535, 4, 4, 6, 7])
        .map(|(value, id)| UnversionedValue {
            id,
            aggregate: id % 2 == 1,
            value,
        })
        .collect();
    let one = vec![row[6]];
    vec![
        None,
        Some(vec![]),
        Some(row),
        None,
        None,
        Some(one),
        Some(vec![]),
    ]
}

#[test]
fn a_row_of_every_type() {
    let rows = example(b"a %\xff~");
    let text = write_text(&rows).unwrap();
    let wanted = "#\n\n0:n\t9:!iffffffffffffffff\t10:u000000000000000a\t65535:!d3ff0000000000000\t\
                  4:b0000000000000001\t4:s\t6:a#\t7:!ca%20%25%FF~\n#\n#\n6:a#\n\n";
    assert_eq!(String::from_utf8_lossy(&text), wanted);
    assert_eq!(text_size(&rows), Ok(text.len()));
}

#[test]
fn rows_come_back_from_text_and_from_bytes() {
    let every: Vec<u8> = (0..=255).collect();
    let nothing: Rows<'_> = Vec::new();
    for rows in [example(&every), example(b""), nothing] {
        let text = write_text(&rows).unwrap();
        let read = read_text(&text).unwrap();
        assert_eq!(owned(&read.rowset()), rows);
        assert_eq!(read.rowset().write_text().as_ref(), Ok(&text));
        assert_eq!(read.rowset().text_size(), Ok(text.len()));
        // The same rowset in its other form.
        let bytes = wire::encode_rowset(&rows).unwrap();
        assert_eq!(read.rowset().encode().as_ref(), Ok(&bytes));
        let decoded = wire::decode_rowset(&bytes).unwrap();
        assert_eq!(decoded.write_text(), Ok(text));
        assert_eq!(decoded, read.rowset());
        assert_eq!(read, read.clone());
        assert_eq!(format!("{read:?}"), format!("{decoded:?}"));
    }
    assert_eq!(write_text::<Vec<_>>(&[]), Ok(Vec::new()));
    assert!(read_text(b"").unwrap().rowset().is_empty());
}

/// Blobs lie back to back in the order of the text, an empty one where it stands, and equal ones each.
#[test]
fn blobs_are_laid_back_to_back() {
    let read = read_text(b"5:sa%20b\t65535:!n\t1:a\n#\n2:cxy\t2:cxy\n").unwrap();
    assert_eq!(read.area, b"a bxyxy");
    assert_eq!(read.rows, [3, u64::MAX, 2]);
    let entries = [
        [5, 16, 0, 0, 3],
        [65_535, 2, 1, 0, 0],
        [1, 17, 0, 3, 0],
        [2, 18, 0, 3, 2],
        [2, 18, 0, 5, 2],
    ];
    assert_eq!(read.values, entries.concat());
}

#[test]
fn a_nan_keeps_its_bits() {
    let sent = f64::from_bits(0x7ff8_0000_dead_beef);
    let text = write_text(&[Some([UnversionedValue::new(0, Value::Double(sent))])]).unwrap();
    assert_eq!(text, b"0:d7ff80000deadbeef\n");
    let read = read_text(&text).unwrap();
    let value = read.rowset().rows().next().flatten().unwrap().get(0);
    let value = value.unwrap().value;
    assert!(matches!(value, Value::Double(read) if read.to_bits() == sent.to_bits()));
}

/// The places of A1's readings: a text, and where it is refused.
#[test]
fn places() {
    let cases: [(&[u8], usize); 45] = [
        (b"x", 0),
        (b":n\n", 0),
        (b"\t5:n\n", 0),
        (b"#", 1),
        (b"##", 1),
        (b"#5:n\n", 1),
        (b"\n\nx", 2),
        (b"5", 1),
        (b"5\n", 1),
        (b"00:n\n", 1),
        (b"65536:n\n", 4),
        (b"70000", 4),
        (b"100000:n\n", 5),
        (b"5:", 2),
        (b"5:!!n\n", 3),
        (b"5:N\n", 2),
        (b"5:n", 3),
        (b"5:n0\n", 3),
        (b"5:n\r\n", 3),
        (b"5:iF\n", 3),
        (b"5:i000000000000000\n", 18),
        (b"5:i0123456789abcdef0\n", 19),
        (b"5:b1", 3),
        (b"5:b0000000000000010\n", 17),
        (b"5:b0000000000000002\n", 18),
        (b"5:b000000000000000\n", 18),
        (b"5:s", 3),
        (b"5:sa b\n", 4),
        (b"5:s\x7f", 3),
        (b"5:s\x80", 3),
        (b"5:s%", 4),
        (b"5:s%%", 4),
        (b"5:s%2", 5),
        (b"5:s%20", 6),
        (b"5:s%21\n", 5),
        (b"5:s%41\n", 4),
        (b"5:s%a0\n", 4),
        (b"5:s%7E\n", 5),
        (b"5:s%7f\n", 5),
        (b"5:s%0a\n", 5),
        (b"5:n\t", 4),
        (b"5:n\t\n", 4),
        (b"5:n\t#\n", 4),
        (b"5:n\t5:n", 7),
        (b"5:i0123456789abcdef", 19),
    ];
    for (text, place) in cases {
        let error = read_text(text).unwrap_err();
        assert_eq!((error.code(), error.place()), (19, Some(place)), "{error}");
        // Behind some whole lines it is the same, so many bytes further on.
        let behind = [b"0:s%25\n\n#\n", text].concat();
        let error = read_text(&behind).unwrap_err();
        assert_eq!(error.place(), Some(10 + place));
        let last = behind[..10 + place]
            .split(|&byte| byte == b'\n')
            .next_back();
        let lines = behind[..10 + place].split(|&byte| byte == b'\n').count();
        assert_eq!(error.column(), last.map(|line| line.len() + 1));
        assert_eq!(error.line(), Some(lines));
    }
}

#[test]
fn what_a_person_reads() {
    let told = |text: &[u8], wanted: &str| {
        let error = read_text(text).unwrap_err();
        assert_eq!(error.to_string(), wanted, "{text:?}");
    };
    told(
        b"0:sa\t1:sgum line\n",
        "line 1, column 12, cell B1: a space; write it as %20",
    );
    told(
        "#\n0:sZähne\n".as_bytes(),
        "line 2, column 5, cell A2: `ä`; write it as %C3%A4",
    );
    told(
        "0:sé\u{202e}\n".as_bytes(),
        "line 1, column 4, cell A1: `é`; write it as %C3%A9",
    );
    told(
        "0:s\u{202e}\n".as_bytes(),
        "line 1, column 4, cell A1: `\\u{202e}`; write it as %E2%80%AE",
    );
    told(
        b"0:s\xe2\x80\n",
        "line 1, column 4, cell A1: the byte 0xe2; write it as %E2",
    );
    told(
        b"0:s\x1b[31m\n",
        "line 1, column 4, cell A1: the byte 0x1b; write it as %1B",
    );
    told(
        b"0:sa\r\n",
        "line 1, column 5, cell A1: a carriage return; save it with line feeds alone at the ends of lines",
    );
    told(
        b"0:sa\rb\n",
        "line 1, column 5, cell A1: a carriage return; write it as %0D",
    );
    told(
        b"\xef\xbb\xbf0:sa\n",
        "line 1, column 1, cell A1: a byte order mark; save it as UTF-8 without a mark at its front",
    );
    told(
        b"\xff\xfe0\0:\0",
        "line 1, column 1, cell A1: the byte 0xff; save it as UTF-8 without a mark at its front",
    );
    told(
        b"#\n\"0:sa\"\n",
        "line 2, column 1, cell A2: `\"`; save it without quotation marks around values",
    );
    let tab = "a tab; tabs stand between two values alone: take this one away";
    told(b"#\t\n", &format!("line 1, column 2, cell A1: {tab}"));
    told(b"\n\t\n", &format!("line 2, column 1, cell A2: {tab}"));
    told(
        b"0:n\t\n",
        "line 1, column 5, cell B1: the line's end; tabs stand between two values alone: take this one away",
    );
    told(
        b"0:n",
        "line 1, column 4, cell A1: its end; every line ends in a line feed, the last one too",
    );
    told(
        b"term\n",
        "line 1, column 1, cell A1: `t`; a line begins with a column's number, or is `#` alone, or empty",
    );
    told(
        b"##\n",
        "line 1, column 2, cell A1: `#`; nothing stands behind the `#` of a null row",
    );
    told(
        b"0:n\tterm\n",
        "line 1, column 5, cell B1: `t`; a value begins with its column's number",
    );
    let colon = "a column's number is at most 65535, without a zero before it, and a colon follows";
    told(
        b"07:n\n",
        &format!("line 1, column 2, cell A1: `7`; {colon}"),
    );
    told(
        b"7 :n\n",
        &format!("line 1, column 2, cell A1: a space; {colon}"),
    );
    told(
        b"7:S\n",
        "line 1, column 3, cell A1: `S`; behind the colon stands one of n i u d b s a c, with `!` before it for an \
         aggregate",
    );
    told(
        b"7:nothing\n",
        "line 1, column 4, cell A1: `o`; the value is whole: a tab or the line's end follows",
    );
    told(
        b"7:u10\n",
        "line 1, column 6, cell A1: the line's end; a number is 16 digits, 0 to 9 and a to f",
    );
    told(
        b"7:b1\n",
        "line 1, column 4, cell A1: `1`; a boolean is fifteen times 0, and then 0 or 1",
    );
    told(
        b"7:s100%\n",
        "line 1, column 8, cell A1: the line's end; % begins an escape: two digits, 0 to 9 and A to F, of a byte that \
         is not printable, or 25 for % itself; all other bytes stand for themselves",
    );
    // The cells' letters go on behind Z.
    for (tabs, cell) in [(25, "Z1"), (26, "AA1"), (701, "ZZ1"), (702, "AAA1")] {
        let text = [b"0:n\t".repeat(tabs), b"x".to_vec()].concat();
        let error = read_text(&text).unwrap_err().to_string();
        assert!(error.contains(&format!(", cell {cell}: `x`;")), "{error}");
    }
}

#[test]
fn limits_have_their_numbers() {
    let row = [b"0:n\t".repeat(1024), b"0:n\n".to_vec()].concat();
    let error = read_text(&[b"#\n\n", &row[..]].concat()).unwrap_err();
    let wanted = TextError::Limit(WireError::TooManyValues {
        row: 2,
        count: 1025,
    });
    assert_eq!((error, error.code()), (wanted, 11));
    assert_eq!((error.line(), error.place()), (Some(3), None));
    let told = "line 3: row 2 declares 1025 values, more than the 1024 allowed; split the list";
    assert_eq!(error.to_string(), told);
    // At the limit it is read.
    let whole = read_text(&[&b"0:n\t".repeat(1023)[..], b"0:n\n"].concat()).unwrap();
    assert_eq!(whole.rowset().rows().next().flatten().unwrap().len(), 1024);

    let text = b"#\n".repeat(5_242_881);
    let error = read_text(&text).unwrap_err();
    assert_eq!((error.code(), error.line()), (10, Some(5_242_881)));
    assert_eq!(read_text(&text[2..]).unwrap().rowset().len(), 5_242_880);

    let text = [&b"0:s"[..], &b"a".repeat(16_777_216), b"\n"].concat();
    assert_eq!(read_text(&text).unwrap().area.len(), 16_777_216);
    let long = [&text[..text.len() - 1], b"a"].concat();
    let error = read_text(&long).unwrap_err();
    assert_eq!((error.code(), error.line()), (12, None));
}

/// What a rowset's writer refuses has no text, and nothing is copied for it.
#[test]
fn writing_refuses_as_the_rowset_writer_does() {
    let value = UnversionedValue::new(0, Value::Null);
    let long = vec![0; 16_777_217];
    let blob = UnversionedValue::new(0, Value::String(&long));
    let too_many = vec![Some(vec![]), Some(vec![value; 1025])];
    for rows in [too_many, vec![None, Some(vec![value, blob])]] {
        let refusal = wire::encode_rowset(&rows).unwrap_err();
        assert_eq!(write_text(&rows), Err(refusal));
        assert_eq!(text_size(&rows), Err(refusal));
    }
}

/// A text with more tables than usual is read too: rows and values of the fewest bytes.
#[test]
fn dense_texts() {
    for (text, values) in [
        (&b"0:n\n"[..], 1),
        (b"\n", 0),
        (b"#\n", 0),
        (b"1:s\t2:a\n", 2),
    ] {
        let many = text.repeat(1000);
        let room = Room::of(&many);
        assert_eq!((room.rows, room.values), (1000, 1000 * values));
        assert!(room.bytes() > USUAL * many.len());
        let read = read_text(&many).unwrap();
        assert_eq!(read.rowset().write_text(), Ok(many));
    }
    let usual = b"0:sby-catch\t1:sBeifang,%20der\n".repeat(1000);
    let room = Room::of(&usual);
    assert!(room.bytes() <= USUAL * usual.len(), "{}", room.bytes());
}
