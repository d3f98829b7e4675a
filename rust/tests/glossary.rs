//! Fisheries and dentistry: a lookup of glossaries by event, some of which have none. If a null row
//! were dropped, every later glossary would appear under the wrong title.

use cablefinch::wire::{self, Decoder, UnversionedValue, Value};

const EVENTS: [(&str, Option<&str>); 7] = [
    ("fisheries", Some("by-catch")),
    ("budget", None),
    ("harbour dues", None),
    ("dentistry", Some("gum line")),
    ("opening", Some("")),
    ("closing", None),
    ("transport", Some("axle load")),
];

fn lookup() -> Vec<u8> {
    let rows: Vec<_> = EVENTS
        .iter()
        .map(|(_, term)| match term {
            None => None,
            // Found, and without a term: an empty row.
            Some("") => Some(vec![]),
            Some(term) => Some(vec![UnversionedValue::new(
                0,
                Value::String(term.as_bytes()),
            )]),
        })
        .collect();
    wire::encode_rowset(&rows).unwrap()
}

#[test]
fn each_event_keeps_its_own_glossary() {
    let bytes = lookup();
    let mut decoder = Decoder::new();
    // The second time over the tables of the first.
    for _ in 0..2 {
        let rowset = decoder.decode_rowset(&bytes).unwrap();
        assert_eq!(rowset.len(), EVENTS.len());
        for ((event, expected), row) in EVENTS.iter().zip(rowset.rows()) {
            match (expected, row) {
                (None, None) => {}
                (Some(""), Some(row)) => assert!(row.is_empty(), "{event}"),
                (Some(term), Some(row)) => {
                    let value = row.column(0).map(|value| value.value);
                    assert_eq!(value, Some(Value::String(term.as_bytes())), "{event}");
                }
                (expected, row) => panic!("{event}: {expected:?}, read as {row:?}"),
            }
        }
    }
}

#[test]
fn null_rows_count() {
    let bytes = lookup();
    let rowset = wire::decode_rowset(&bytes).unwrap();
    assert_eq!(rowset.rows().len(), 7);
    assert_eq!(rowset.rows().filter(Option::is_none).count(), 3);
    assert_eq!((&rowset).into_iter().count(), 7);
    assert!(wire::decode_rowset(&lookup()[..bytes.len() - 1]).is_err());
}
