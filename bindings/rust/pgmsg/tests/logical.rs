//! The messages of logical replication as the crate gives them: the bytes are those of pgoutput of PostgreSQL 15. What
//! their fields are, and what of them is refused, the tests of the core have (`logical.rt.in`).

mod common;

use common::{checked, fault_of, Numbers};
use pgmsg::replication::logical::*;
use pgmsg::Refusal;

/// A message of each kind, and whether it is streamed.
const KINDS: &[(&[u8], bool)] = &[
    (b"B\0\0\0\0\x01\x95\xb5\xe8\0\x03\x04{$\x85<\r\0\0\x06X", false),
    (b"C\0\0\0\0\0\x01\x95\xb5\xe8\0\0\0\0\x01\x95\xb6\x18\0\x03\x04{$\x85<\r", false),
    (b"O\0\0\0\x01\0\0\0(far\0", false),
    (b"M\x01\0\0\0\0\x01\x95\xec\x10later\0\0\0\0\x03a\0b", false),
    (b"M\0\0\x06j\x01\0\0\0\0\x01\x9e\x2c\x68among many\0\0\0\0\x05words", true),
    (
        b"R\0\0\x40\xc5public\0person\0d\0\x02\x01id\0\0\0\0\x17\xff\xff\xff\xff\0name\0\0\0\0\x19\xff\xff\xff\xff",
        false,
    ),
    (b"Y\0\0\x06j\0\0\x40\xc1public\0mood\0", true),
    (b"I\0\0\x40\xc5N\0\x04b\0\0\0\x04\0\0\0\x01b\0\0\0\x03annnt\0\0\0\x13postgres=r/postgres", false),
    (b"U\0\0\x40\xccN\0\x03t\0\0\0\x011t\0\0\0\x06secondu", false),
    (b"U\0\0\x40\xf3K\0\x02t\0\0\0\x011nN\0\x02t\0\0\0\x02-1n", false),
    (b"U\0\0\x40\xd3O\0\x02t\0\0\0\x011t\0\0\0\x03oneN\0\x02t\0\0\0\x011t\0\0\0\x03uno", false),
    (b"D\0\0\x06l\0\0\x40\xc5K\0\x04t\0\0\0\x03100nnn", true),
    (b"T\0\0\0\x02\x01\0\0\x40\xd8\0\0\x40\xdd", false),
    (b"S\0\0\x06j\x01", false),
    (b"E", true),
    (b"c\0\0\x06j\0\0\0\0\0\x01\x9f\x95\x18\0\0\0\0\x01\x9f\x960\0\x03\x04{$\x85\xd6e", false),
    (b"A\0\0\x06j\0\0\x06k", false),
    (b"b\0\0\0\0\x01\x95\xec\xc0\0\0\0\0\x01\x95\xed\xb8\0\x03\x04{$\x85p\xf3\0\0\x06gkept\0", false),
    (b"P\0\0\0\0\0\x01\x95\xec\xc0\0\0\0\0\x01\x95\xed\xb8\0\x03\x04{$\x85p\xf3\0\0\x06gkept\0", false),
    (b"K\0\0\0\0\0\x01\x95\xec\xc0\0\0\0\0\x01\x95\xed\xb8\0\x03\x04{$\x85p\xf3\0\0\x06gkept\0", false),
    (b"p\0\0\0\0\0\x01\x95\xec\xc0\0\0\0\0\x01\x95\xed\xb8\0\x03\x04{$\x85p\xf3\0\0\x06gkept\0", false),
    (
        b"r\0\0\0\0\0\x01\x95\xef0\0\0\0\0\x01\x95\xefh\0\x03\x04{$\x85r\xb4\0\x03\x04{$\x85s3\0\0\x06hleft\0",
        false,
    ),
];

#[test]
fn each_kind_is_written_as_it_is_read() {
    for &(content, streamed) in KINDS {
        let message = LogicalMessage::read(content, streamed).expect("no fault");
        let mut out = b"head".to_vec();
        assert_eq!(message.write(&mut out), Ok(()));
        assert_eq!(out, [b"head", content].concat());
        assert_eq!(message.letter(), content[0]);
        assert_eq!(LogicalMessage::read(&out[4..], streamed), Ok(message));
    }
}

#[test]
fn messages_are_equal_where_they_say_the_same() {
    for (at, &(content, streamed)) in KINDS.iter().enumerate() {
        for (other_at, &(other, other_streamed)) in KINDS.iter().enumerate() {
            let read = LogicalMessage::read(content, streamed);
            let other = LogicalMessage::read(other, other_streamed);
            assert_eq!(read == other, at == other_at, "{read:?} {other:?}");
        }
    }
    // The rows are the same, and what follows them is not.
    let row = |content| match LogicalMessage::read(content, false) {
        Ok(LogicalMessage::Update(update)) => update.old,
        other => panic!("{other:?}"),
    };
    let (old, key) = (row(b"U\0\0\0\x01O\0\x01uN\0\x01n"), row(b"U\0\0\0\x01K\0\x01uN\0\x01n"));
    assert_eq!(old, row(b"U\0\0\0\x01O\0\x01uN\0\x02nn"));
    assert_ne!(old, key);
    assert_eq!(format!("{old:?} {key:?}"), "Some(Whole([Unchanged])) Some(Key([Unchanged]))");
}

#[test]
fn a_stream_keeps_whether_it_is_streamed() {
    let mut stream = LogicalStream::new();
    let truncate = b"T\0\0\x06l\0\0\0\x01\0\0\0\x40\xd3";
    for _ in 0..2 {
        assert!(stream.read(truncate).is_err());
        assert!(stream.read(b"S\0\0\x06j\x01").is_ok());
        assert!(stream.streamed);
        assert_eq!(fault_of(stream.read(b"Z")), (Refusal::UnknownMessageType, 0));
        assert!(stream.read(truncate).is_ok());
        assert_eq!(stream.read(b"E"), Ok(LogicalMessage::StreamStop(StreamStop)));
        assert!(!stream.streamed);
    }
}

#[test]
fn what_is_cut_off_or_changed_is_shown_or_refused() {
    let mut numbers = Numbers::new(0x9e37_79b9_7f4a_7c15);
    for &(content, streamed) in KINDS {
        for len in 0..content.len() {
            assert!(checked(content, LogicalMessage::read(&content[..len], streamed)).is_none());
        }
        for _ in 0..500 {
            let content = numbers.changed(content);
            for streamed in [false, true] {
                if let Some(message) = checked(&content, LogicalMessage::read(&content, streamed)) {
                    // Each list is walked.
                    assert!(!format!("{message:?}").is_empty());
                }
            }
        }
    }
}

#[test]
fn what_is_given_is_written_or_refused() {
    let row = vec![OutboundDatum::of(Datum::Null); 65536];
    let insert = |count| {
        let new = Tuple::of(&row[..count]).expect("known kinds");
        LogicalMessage::Insert(Insert { transaction: None, relation: 1, new })
    };
    let columns = [Column { flags: 1, name: b"id", type_id: 23, type_modifier: -1 }];
    let table = |schema| {
        LogicalMessage::Relation(Relation {
            transaction: None,
            relation: 16389,
            schema,
            name: b"t",
            replica_identity: b'd',
            columns: Columns::of(&columns),
        })
    };
    let due = b"R\0\0\x40\x05public\0t\0d\0\x01\x01id\0\0\0\0\x17\xff\xff\xff\xff";
    assert_eq!(LogicalMessage::read(due, false), Ok(table(b"public")));
    let mut out = Vec::new();
    assert_eq!((table(b"public").write(&mut out), &out[..]), (Ok(()), &due[..]));
    assert_eq!((insert(65535).write(&mut out), out.len()), (Ok(()), due.len() + 8 + 65535));
    for (message, refusal) in [
        (insert(65536), Refusal::TooMany),
        (table(b"a\0b"), Refusal::TextHoldsNul),
        (LogicalMessage::Origin(Origin { lsn: 1, name: b"far\0" }), Refusal::TextHoldsNul),
    ] {
        let mut out = b"head".to_vec();
        assert_eq!((message.write(&mut out), &out[..]), (Err(refusal), &b"head"[..]));
    }
    assert_eq!(
        Tuple::of(&[OutboundDatum { kind: b'x', value: b"" }]).err().map(Refusal::from),
        Some(Refusal::UnknownLetter)
    );
}
