//! Exports that are imported again.

use crate::export::export;
use crate::import::import;
use crate::samples::{self, TempFile};
use recording::{RecordKind, Side, Writer};

/// Exports a recording, imports that, and gives both.
fn there_and_back(name: &str, tape: &[u8]) -> (String, Vec<u8>) {
    let from = TempFile::with(&format!("{name}.tape"), tape);
    let (lines, back) =
        (TempFile::new(&format!("{name}.jsonl")), TempFile::new(&format!("{name}.back")));
    export(from.path(), Some(lines.path())).unwrap();
    import(lines.path(), back.path()).unwrap_or_else(|why| panic!("{name}: {why}"));
    (String::from_utf8(lines.bytes()).unwrap(), back.bytes())
}

#[test]
fn an_export_of_random_records_gives_the_same_bytes() {
    for seed in 0..150 {
        let tape = samples::recording(seed, seed % 2 == 1);
        let (_, back) = there_and_back(&format!("random{seed}"), &tape);
        assert!(back == tape, "seed {seed}");
    }
}

#[test]
fn a_recording_that_is_cut_anywhere_gives_the_same_bytes() {
    let tape = samples::recording(0, false);
    for end in (24..tape.len()).step_by(37) {
        assert!(there_and_back("cut", &tape[..end]).1 == tape[..end], "{end}");
    }
}

/// A recording of one connection, whose client sends these records and whose others say nothing.
fn of_client(records: &[&[u8]]) -> Vec<u8> {
    let mut file = Vec::new();
    let mut out = Writer::new(&mut file, 0).unwrap();
    out.add(RecordKind::Opened, 1, 0, b"").unwrap();
    out.add(RecordKind::Opened, 2, 0, b"").unwrap();
    for (time, record) in records.iter().enumerate() {
        out.add(RecordKind::Bytes(Side::Client), 1, time as u64, record).unwrap();
        out.add(RecordKind::Bytes(Side::Server), 2, time as u64, b"Z\0\0\0\x05I").unwrap();
    }
    out.end().unwrap();
    file
}

/// A recording of all kinds of lines.
fn of_all_kinds() -> Vec<u8> {
    let mut file = Vec::new();
    let mut out = Writer::new(&mut file, 1_700_000_000_000_000).unwrap();
    out.add(RecordKind::Opened, 1, 0, b"[local]").unwrap();
    for side in [Side::Client, Side::Server] {
        out.add(RecordKind::Bytes(side), 1, 5, &samples::stream(side)).unwrap();
    }
    out.add(RecordKind::LeftOut(Side::Client), 1, 6, b"p\0\0\0\x28").unwrap();
    out.add(RecordKind::Closed, 1, 6, b"F").unwrap();
    out.add(RecordKind::Opened, 2, 6, b"").unwrap();
    let mut first = b"\0\0\0\x08\x04\xd2\x16\x2f\0\0\0\x08\x04\xd2\x16\x30".to_vec();
    first.extend(samples::cancel());
    let (front, back) = first.split_at(20);
    out.add(RecordKind::Bytes(Side::Client), 2, 7, front).unwrap();
    out.add(RecordKind::Bytes(Side::Client), 2, 7, back).unwrap();
    out.add(RecordKind::Bytes(Side::Server), 2, 8, b"\0\0 no protocol").unwrap();
    out.add(RecordKind::Encrypted, 2, 9, b"").unwrap();
    out.end().unwrap();
    file.extend_from_slice(b"\0\0\0\x05");
    file
}

#[test]
fn each_kind_of_line_has_its_fields() {
    let tape = of_all_kinds();
    let (lines, back) = there_and_back("kinds", &tape);
    assert!(back == tape);
    assert_eq!(lines, include_str!("../kinds.jsonl"));
}

#[test]
fn a_message_in_several_records_has_its_fields_where_it_is_not_too_long() {
    let first: &[u8] = b"\0\0\0\x09\0\x03\0\0\0";
    let tape = of_client(&[first, b"Q\0\0\0\x0dSEL", b"ECT 1", b"\0X\0\0\0\x04"]);
    let (lines, back) = there_and_back("several", &tape);
    assert!(back == tape);
    for line in [
        r#"{"connection":1,"time":1,"side":"client","here":8,"kind":"Query","query":"SELECT 1"}"#,
        r#"{"connection":1,"time":2,"side":"client","here":5,"kind":"Continued"}"#,
        r#"{"connection":1,"time":3,"side":"client","kind":"Continued"}"#,
        r#"{"connection":1,"time":3,"side":"client","kind":"Terminate"}"#,
    ] {
        assert!(lines.lines().any(|it| it == line), "{line} of {lines}");
    }
    for size in [100 << 10, 6 << 20] {
        let mut long = b"d".to_vec();
        long.extend_from_slice(&(size as u32 + 4).to_be_bytes());
        long.resize(size + 5, b'x');
        let mut records = vec![first];
        records.extend(long.chunks(1 << 20));
        records.push(b"X\0\0\0\x04");
        let tape = of_client(&records);
        let (lines, back) = there_and_back("long", &tape);
        assert!(back == tape, "{size}");
        assert_eq!(lines.matches("Terminate").count(), 1);
        assert_eq!(lines.matches("CopyData").count(), usize::from(size < 1 << 20));
    }
}

#[test]
fn a_message_that_waits_while_much_else_passes_is_given_as_bytes() {
    let first: &[u8] = b"\0\0\0\x09\0\x03\0\0\0";
    for (front, parts) in [(&b"Q\0\0"[..], 3), (b"Q\0\0\0\x0dSEL", 2)] {
        let whole: &[u8] = b"Q\0\0\0\x0dSELECT 1\0X\0\0\0\x04";
        let mut file = Vec::new();
        let mut out = Writer::new(&mut file, 0).unwrap();
        out.add(RecordKind::Opened, 1, 0, b"").unwrap();
        out.add(RecordKind::Opened, 2, 0, b"").unwrap();
        out.add(RecordKind::Bytes(Side::Client), 1, 0, &[first, front].concat()).unwrap();
        let row = [&b"d\0\x0f\0\0"[..], &[b'x'; 0xf_0000 - 4]].concat();
        for _ in 0..12 {
            out.add(RecordKind::Bytes(Side::Server), 2, 0, &row).unwrap();
        }
        out.add(RecordKind::Bytes(Side::Client), 1, 1, &whole[front.len()..]).unwrap();
        out.end().unwrap();
        let (lines, back) = there_and_back("waits", &file);
        assert!(back == file);
        assert_eq!(lines.matches("\"kind\":\"Bytes\"").count(), parts, "{front:?}");
        assert_eq!(
            (lines.matches("CopyData").count(), lines.matches("Terminate").count()),
            (12, 1)
        );
    }
}
