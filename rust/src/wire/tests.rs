use super::*;

type Owned<'a> = Vec<Option<Vec<UnversionedValue<'a>>>>;

fn owned<'a>(rowset: &Rowset<'a>) -> Owned<'a> {
    rowset
        .rows()
        .map(|row| row.map(|row| row.values().collect()))
        .collect()
}

#[test]
fn null_and_empty_rows_stay_apart() {
    let rows: Owned<'_> = vec![
        None,
        Some(vec![]),
        Some(vec![UnversionedValue::new(3, Value::Null)]),
        None,
    ];
    let bytes = encode_rowset(&rows).unwrap();
    assert_eq!(encoded_size(&rows), Ok(bytes.len()));
    let rowset = decode_rowset(&bytes).unwrap();
    assert_eq!(owned(&rowset), rows);
    assert_eq!(rowset.len(), 4);
    assert!(is_plain(&bytes));
    assert_eq!(rowset.encode(), Ok(bytes.clone()));
}

#[test]
fn every_value() {
    let values = vec![
        UnversionedValue::new(0, Value::Int64(i64::MIN)),
        UnversionedValue::new(1, Value::Uint64(u64::MAX)),
        UnversionedValue::new(2, Value::Double(-0.5)),
        UnversionedValue::new(3, Value::Boolean(true)),
        UnversionedValue::new(4, Value::String(b"hello")),
        UnversionedValue::new(5, Value::Any(b"")),
        UnversionedValue {
            id: u16::MAX,
            aggregate: true,
            value: Value::Composite(b"[1; 2]  "),
        },
    ];
    let bytes = encode_rowset(&[Some(&values)]).unwrap();
    let rowset = decode_rowset(&bytes).unwrap();
    let row = rowset.rows().next().unwrap().unwrap();
    assert!(row.values().eq(values.iter().copied()));
    assert_eq!(row.column(4), row.get(4));
    assert_eq!(row.get(7), None);
    assert_eq!(row.get(usize::MAX), None);
    assert_eq!(row.column(9), None);
}

#[test]
fn a_nan_keeps_its_bits() {
    let sent = f64::from_bits(0x7ff8_0000_dead_beef);
    let bytes = encode_rowset(&[Some([UnversionedValue::new(0, Value::Double(sent))])]).unwrap();
    let rowset = decode_rowset(&bytes).unwrap();
    let value = rowset.rows().next().unwrap().unwrap().get(0).unwrap().value;
    assert!(matches!(value, Value::Double(read) if read.to_bits() == sent.to_bits()));
}

#[test]
fn a_decoder_grows_and_is_used_again() {
    let mut decoder = Decoder::new();
    for n in [0usize, 1, 64, 65, 900, 2] {
        let row = vec![UnversionedValue::new(1, Value::String(b"term")); n];
        let rows: Vec<_> = (0..n).map(|i| (i % 3 != 0).then_some(&row)).collect();
        let bytes = encode_rowset(&rows).unwrap();
        let rowset = decoder.decode_rowset(&bytes).unwrap();
        assert_eq!(rowset.len(), n);
        for (read, sent) in rowset.rows().zip(&rows) {
            assert_eq!(read.map(|row| row.len()), sent.map(|row| row.len()));
        }
    }
}

#[test]
fn refusals_have_their_numbers() {
    let code = |bytes: &[u8]| decode_rowset(bytes).unwrap_err().code();
    assert_eq!(
        decode_rowset(b""),
        Err(WireError::Truncated {
            offset: 0,
            needed: 8
        })
    );
    assert_eq!(code(&u64::MAX.to_le_bytes()), 10);
    let one = |count: u64| [1u64.to_le_bytes(), count.to_le_bytes()].concat();
    assert_eq!(code(&one(1025)), 11);
    assert_eq!(
        code(&[one(1), vec![0, 0, 0x10, 0, 1, 0, 0, 1]].concat()),
        12
    );
    assert_eq!(code(&[one(1), vec![0; 8]].concat()), 14);
    assert_eq!(code(&[one(0), vec![0]].concat()), 15);
    let long = vec![UnversionedValue::new(0, Value::Null); 1025];
    assert_eq!(
        encode_rowset(&[None, Some(long)]),
        Err(WireError::TooManyValues {
            row: 1,
            count: 1025
        })
    );
    let blob = vec![0; MAX_VALUE_LENGTH as usize];
    let row = vec![UnversionedValue::new(0, Value::Any(&blob)); 64];
    // 64 blobs of 16 MiB share their bytes, and nothing is copied before the size is refused.
    assert_eq!(encoded_size(&[Some(&row)]).unwrap_err().code(), 13);
    assert_eq!(encode_rowset(&[Some(&row)]).unwrap_err().code(), 13);
}

#[test]
fn bytes_outlive_the_rowset() {
    let sent = [UnversionedValue::new(0, Value::String(b"kept"))];
    let bytes = encode_rowset(&[Some(sent)]).unwrap();
    let kept = {
        let rowset = decode_rowset(&bytes).unwrap();
        let row = rowset.rows().next().unwrap().unwrap();
        row.get(0).unwrap().value.bytes()
    };
    assert_eq!(kept, Some(&b"kept"[..]));
}

#[test]
fn room_is_made_before_the_first_read() {
    let value = UnversionedValue::new(1, Value::String(b"term"));
    for (rows, nulls, values) in [
        (0, 0, 0),
        (1, 0, 1),
        (900, 3, 65),
        (70, 63, 1024),
        (5, 5, 0),
    ] {
        let row = vec![value; values];
        let rows: Vec<_> = (0..rows).map(|at| (at >= nulls).then_some(&row)).collect();
        let bytes = encode_rowset(&rows).unwrap();
        let guess = read::Guess::of(&bytes);
        let needed: usize = rows.iter().map(|row| row.map_or(0, Vec::len)).sum();
        assert_eq!(guess.rows, rows.len());
        assert!(guess.values >= needed);
        // No more than the input has bytes for.
        assert!(guess.values <= bytes.len() / 16);
    }
    // Rows of other lengths than the first are read a second time, with the room that was told.
    let (short, long) = (vec![value; 1], vec![value; 1000]);
    let rows = [Some(&short), Some(&long), None, Some(&long)];
    let bytes = encode_rowset(&rows).unwrap();
    assert!(read::Guess::of(&bytes).values < 2001);
    assert_eq!(decode_rowset(&bytes).unwrap().len(), 4);
}
