//! What messages are appended to, and values that are spelled into a buffer.

use pgmsg::frontend::Message;
use pgmsg::{Refusal, Values};
use std::panic::{self, AssertUnwindSafe};

#[test]
fn messages_are_appended_to_what_is_there() {
    let mut bytes = vec![b'x'; 3000];
    bytes.shrink_to_fit();
    let refused = Message::Query("\0".into()).write(&mut bytes);
    assert_eq!(refused, Err(Refusal::TextHoldsNul));
    assert_eq!(Message::Query("a".into()).write(&mut bytes), Ok(()));
    assert_eq!(Message::Sync.write(&mut bytes), Ok(()));
    assert_eq!(bytes[2999..], *b"xQ\0\0\0\x06a\0S\0\0\0\x04");
}

#[cfg(feature = "bytes")]
#[test]
fn a_buffer_of_the_crate_bytes() {
    use bytes::BytesMut;
    use pgmsg::frontend::copy_head;
    let mut out = BytesMut::from(&b"before"[..]);
    let mut expected = out.to_vec();
    for length in (0..3000).step_by(13) {
        let data = vec![length as u8; length];
        let message = Message::CopyData((&data).into());
        assert_eq!(message.write(&mut out), Ok(()));
        assert_eq!(message.write(&mut expected), Ok(()));
        assert!(expected.ends_with(&[&copy_head(length).expect("it is short")[..], &data].concat()));
        assert!(Message::CopyFail("\0".into()).write(&mut out).is_err());
        let sent = out.split_to(out.len() / 2);
        assert_eq!(sent, expected[..sent.len()]);
        expected.drain(..sent.len());
    }
    assert_eq!(out, expected);
}

/// Adds a value that is a text, NULL, or can't be spelled.
fn push(values: &mut Values, value: Result<Option<&str>, Refusal>) -> Result<(), Refusal> {
    values.push(|bytes| {
        bytes.push(b'<');
        let value = value?;
        Ok(value.map(|value| bytes.extend_from_slice(value.as_bytes())))
    })
}

#[test]
fn values_that_are_spelled_one_after_the_other() {
    let mut values = Values::default();
    for turn in 0..2 {
        for value in [Ok(Some("a")), Ok(None), Ok(Some("bc"))] {
            push(&mut values, value).expect("it can be spelled");
        }
        let refused = push(&mut values, Err(Refusal::BadParams));
        assert_eq!(refused, Err(Refusal::BadParams));
        let list: Vec<_> = values.list().iter().map(|it| it.bytes()).collect();
        assert_eq!(list, [Some(&b"<a"[..]), None, Some(b"<bc")], "{turn}");
        assert_eq!(format!("{values:?}"), "Values { len: 3, .. }");
        assert_eq!(values.bytes_len(), 5);
        values.clear();
        assert!(values.list().is_empty());
    }
}

#[test]
fn a_value_after_one_that_panicked() {
    let mut values = Values::default();
    push(&mut values, Ok(Some("a"))).expect("it can be spelled");
    let spelled = panic::catch_unwind(AssertUnwindSafe(|| {
        values.push(|bytes: &mut Vec<u8>| -> Result<Option<()>, Refusal> {
            bytes.push(b'X');
            panic::resume_unwind(Box::new("while a value is spelled"))
        })
    }));
    assert!(spelled.is_err());
    assert_eq!(values.bytes_len(), 2);
    push(&mut values, Ok(Some("b"))).expect("it can be spelled");
    let list: Vec<_> = values.list().iter().map(|it| it.bytes()).collect();
    assert_eq!(list, [Some(&b"<a"[..]), Some(b"<b")]);
}

#[test]
fn values_whose_bytes_were_taken_away_lie_within_the_rest() {
    let mut values = Values::default();
    push(&mut values, Ok(Some("abcd"))).expect("it can be spelled");
    let pushed = values.push(|bytes| {
        bytes.truncate(2);
        Ok::<_, Refusal>(Some(()))
    });
    assert!(pushed.is_ok());
    let list: Vec<_> = values.list().iter().map(|it| it.bytes()).collect();
    assert_eq!(list, [Some(&b"<a"[..]), Some(b"")]);
}
