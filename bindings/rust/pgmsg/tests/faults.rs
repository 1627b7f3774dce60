//! A fault of each number that a reader gives, by its offset and its words; and what a caller can't write. What each
//! reader and each writer refuses the tests of the C library have, and `hostile` that no reader takes it here.

use pgmsg::backend::{self, Column, CopyResponse, Field, FieldKind, Severity, TransactionStatus};
use pgmsg::frontend::{self, copy_head, Bind, Message, Parse, Startup};
use pgmsg::{Fault, Format, Refusal, Refusal::*, Value};

/// The tag of a message and its body that is refused, why, at which offset, and in which words.
type Row = (Option<u8>, &'static [u8], Refusal, usize, &'static str);

#[rustfmt::skip]
const OF_CLIENT: &[Row] = &[
    (None, b"\0\x02\0\0", UnknownCode, 0, "unknown code: 131072"),
    (None, b"\0\x03\0\0user\0ann", MissingNul, 9, "expected NUL after offset 9"),
    (None, b"\x04\xd2\x16\x2e\0\0\0\x01abc", BadKeyLength, 0, "bad secret key length: 3"),
    (Some(b'P'), b"\0\0\0\x02\0\0\0\x17\0", Short, 4, "expected 8 bytes at offset 4, got 5"),
    (Some(b'D'), b"Xs\0", UnknownTarget, 0, "neither a statement nor a portal: 88"),
    (Some(b'Q'), b"a\0b\0", TrailingBytes, 2, "expected the end of the message at offset 2"),
    (Some(b'B'), b"\0\0\0\0\0\x01\x80\0\0\0\0\0", BadValueLength, 6, "bad value length at offset 6: -2147483648"),
    (Some(b'!'), b"", UnknownMessageType, 0, "unknown message type: 33"),
];

#[rustfmt::skip]
const OF_SERVER: &[Row] = &[
    (Some(b'R'), b"\0\0\0\x05\x01\x02\x03", Short, 4, "expected 4 bytes at offset 4, got 3"),
    (Some(b'K'), b"\0\0\x04\xd2\xfe\xdc\xba", BadKeyLength, 0, "secret key length out of range for protocol: 3"),
    (Some(b'Z'), b"X", UnknownStatus, 0, "unknown transaction status: 88"),
    (Some(b'v'), b"\0\x03\0\0\0\0\0\x02a\0b", MissingNul, 10, "expected NUL after offset 10"),
    (Some(b'1'), b"a", TrailingBytes, 0, "expected the end of the message at offset 0"),
    (None, b"", UnknownMessageType, 0, "message without a tag"),
];

fn assert_refused<T>(rows: &[Row], read: fn(Option<u8>, &'static [u8]) -> Result<T, Fault>) {
    for &(tag, body, refusal, at, words) in rows {
        let fault = read(tag, body).err().unwrap_or_else(|| panic!("no fault: {words}"));
        assert_eq!((fault.refusal, fault.at), (refusal, at), "{words}");
        assert_eq!(fault.to_string(), words);
    }
}

#[test]
fn bodies_that_are_refused() {
    assert_refused(OF_CLIENT, frontend::Message::read_body);
    assert_refused(OF_SERVER, backend::Message::read_body);
}

#[test]
fn severities() {
    let words = ["PANIC", "FATAL", "ERROR", "WARNING", "NOTICE", "DEBUG", "INFO", "LOG"];
    use Severity::*;
    let all = [Panic, Fatal, Error, Warning, Notice, Debug, Info, Log];
    for (level, (word, expected)) in (0..).zip(words.into_iter().zip(all)) {
        assert_eq!(Severity::read(format!("V{word}\0\0").as_bytes()), Ok(expected));
        assert_eq!(expected.to_string(), word);
        assert_eq!((Severity::try_from(level), expected as u8), (Ok(expected), level));
        assert_eq!(expected.is_error(), ["PANIC", "FATAL", "ERROR"].contains(&word));
    }
    assert_eq!(Severity::try_from(8), Err(UnknownSeverity));
    assert_eq!(Severity::read(b"VNOPE\0\0").map_err(|it| it.refusal), Err(UnknownSeverity));
    assert_eq!(Severity::read(b"M\xff\0\0").map_err(|it| it.refusal), Err(NoticeNotUtf8));
}

#[test]
fn every_letter_of_a_status() {
    for letter in 0..=u8::MAX {
        match TransactionStatus::try_from(letter) {
            Ok(status) => assert_eq!(status.letter(), letter),
            Err(fault) => assert_eq!(fault.refusal, UnknownStatus),
        }
        assert_eq!(TransactionStatus::try_from(letter).is_ok(), b"ITE".contains(&letter));
    }
}

#[test]
fn every_letter_of_a_field() {
    let letters = b"SVCMDHPpqWstcdnFLR";
    for letter in 0..=u8::MAX {
        let kind = FieldKind::from_letter(letter);
        assert_eq!(kind.letter(), letter);
        let is_other = kind == FieldKind::Other(letter);
        assert_eq!(is_other, !letters.contains(&letter), "{letter}");
    }
    let fields = [Field::new(FieldKind::Hint, "a"), Field::new(FieldKind::Hint, "b")];
    assert_eq!(backend::Fields::from(&fields).value(FieldKind::Hint), Some("a".into()));
    assert_eq!(backend::Fields::from(&fields).value(FieldKind::Code), None);
}

/// Asserts that a message is refused, and leaves what was written before.
macro_rules! assert_unwritten {
    ($($refusal:ident: $message:expr;)+) => {
        $(
            let mut out = b"before".to_vec();
            assert_eq!($message.write(&mut out), Err($refusal));
            assert_eq!(out, b"before");
        )+
    };
}

#[test]
fn messages_that_are_refused() {
    let (formats, values) = (vec![Format::TEXT; 65536], vec![Value::NULL; 65536]);
    assert_unwritten! {
        TextHoldsNul: Message::Query("SELECT 1\0; DROP TABLE t".into());
        TextHoldsNul: Startup::new(&[("user", "bob"), ("", "db")]);
        TextHoldsNul: backend::Message::RowDescription([Column::new("a\0", 25)].into());
        BadKeyLength: frontend::CancelRequest { process_id: 1, secret_key: b"key".into() };
        BadParams: Bind { values: (&values).into(), ..Bind::default() };
        TooManyParamFormats: Bind { formats: (&formats).into(), ..Bind::default() };
        TooManyResultFormats: Bind { result_formats: (&formats).into(), ..Bind::default() };
        TooManyParamTypes: Parse { types: vec![0; 65536].into(), ..Parse::default() };
        TooMany: backend::Message::DataRow(values.into());
        TooMany: backend::Message::CopyInResponse(CopyResponse { format: 0, columns: formats.into() });
    }
}

#[test]
fn what_is_beyond_the_limit() {
    const GREATEST: usize = i32::MAX as usize - 4;
    assert_eq!(copy_head(4), Ok(*b"d\0\0\0\x08"));
    assert_eq!(copy_head(GREATEST), Ok(*b"d\x7f\xff\xff\xff"));
    assert_eq!(copy_head(GREATEST + 1), Err(MessageTooLong));
    assert_eq!(copy_head(usize::MAX), Err(MessageTooLong));
    // Pages of zeros that nobody touches take no memory.
    let data = vec![0; GREATEST + 1];
    assert_unwritten! {
        MessageTooLong: Message::CopyData((&data).into());
        MessageTooLong: backend::Message::DataRow([(&data).into()].into());
        MessageTooLong: backend::Other { tag: b'!', body: (&data).into() };
    }
}
