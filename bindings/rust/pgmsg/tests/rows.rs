//! Rows by an index, with bytes written by hand in the layout of a DataRow.

mod common;

use common::fault_of;
use pgmsg::backend::*;
use pgmsg::Refusal;

/// A row of a text, NULL and an empty text.
const BODY: &[u8] = b"\0\x03\0\0\0\x02ab\xff\xff\xff\xff\0\0\0\0";

#[test]
fn rows() {
    let mut reader = RowIndex::new();
    let row = reader.read(BODY).expect("the row is complete");
    assert_eq!(row.len(), 3);
    assert!(!row.is_empty());
    assert!(row.iter().eq([Some(&b"ab"[..]), None, Some(b"")]));
    assert!(row.iter().rev().eq([Some(&b""[..]), None, Some(b"ab")]));
    assert_eq!(row.get(0), Some(Some(&b"ab"[..])));
    assert_eq!(row.get(1), Some(None));
    assert_eq!(row.get(3), None);
    assert_eq!(format!("{row:?}"), "[Some([97, 98]), None, Some([])]");
    assert_eq!(row.iter().len(), 3);
}

#[test]
fn places_of_cells() {
    let mut reader = RowIndex::with_capacity(1);
    let row = reader.read(BODY).expect("the row is complete");
    let ranges = row.places().iter().map(Cell::range);
    assert!(ranges.eq([Some(6..8), None, Some(16..16)]));
    assert!(row.places()[1].is_null() && !row.places()[2].is_null());
    let places = row.places().to_vec();
    let values = places.iter().map(|place| place.value(BODY));
    assert!(values.eq(row.iter()));
    assert_eq!(places[0].value(b"too short"[..7].as_ref()), None);
}

#[test]
fn a_reader_is_used_again() {
    let mut reader = RowIndex::new();
    let wide = b"\0\x02\0\0\0\x01a\0\0\0\x01b";
    let values: Vec<_> = reader.read(wide).expect("the row is complete").iter().collect();
    let narrow = reader.read(b"\0\x01\xff\xff\xff\xff").expect("the row is complete");
    assert!(narrow.iter().eq([None]));
    assert!(reader.read(b"\0\0").expect("the row is complete").is_empty());
    assert_eq!(values, [Some(&b"a"[..]), Some(b"b")]);
}

#[test]
fn broken_rows() {
    let read = |body| fault_of(RowIndex::new().read(body).map(drop));
    assert_eq!(read(b"\0\x01\0\0\0"), (Refusal::Short, 2));
    assert_eq!(read(b"\0\x01\0\0\0\x02a"), (Refusal::Short, 6));
}
