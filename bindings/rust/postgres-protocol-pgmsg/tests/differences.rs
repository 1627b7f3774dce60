//! Where this crate differs from the original, and why a Bind is refused. All else `original` compares.

use bytes::BytesMut;
use fallible_iterator::FallibleIterator;
use postgres_protocol_pgmsg::message::backend::Message;
use postgres_protocol_pgmsg::message::frontend::*;
use postgres_protocol_pgmsg::IsNull;
use std::error::Error;
use std::panic::{catch_unwind, AssertUnwindSafe};

#[test]
fn streams_that_only_one_refuses() {
    let read = |stream: &[u8]| Message::parse(&mut BytesMut::from(stream));
    assert!(read(b"Z\0\0\0\x05\0").is_err());
    assert!(read(b"S\x80\0\0\0").is_err());
    match read(b"D\0\0\0\x0a\0\x02\xff\xff\xff\xff") {
        Ok(Some(Message::DataRow(row))) => assert!(row.ranges().next().is_err()),
        _ => panic!("no row"),
    }
}

/// Tests that a call refuses, and leaves the buffer as it was.
fn refuses(call: impl FnOnce(&mut BytesMut) -> bool) {
    let mut out = BytesMut::from(&b"before"[..]);
    assert!(call(&mut out));
    assert_eq!(out, "before");
}

/// Writes no value.
fn fails(_: (), to: &mut BytesMut) -> Result<IsNull, Box<dyn Error + Sync + Send>> {
    to.extend_from_slice(b"a part");
    Err("no luck".into())
}

#[test]
fn refusals_leave_the_buffer() {
    refuses(|out| startup_message([("", "")], out).is_err());
    refuses(|out| describe(b'x', "", out).is_err());
    refuses(|out| close(b'x', "", out).is_err());
    refuses(|out| {
        let refused = bind("", "", [], [()], fails, [], out);
        matches!(refused, Err(BindError::Conversion(_)))
    });
    refuses(|out| {
        let takes_away = |_, to: &mut BytesMut| {
            to.clear();
            Ok(IsNull::No)
        };
        let kept = out.split();
        let refused = bind("", "", [], [()], takes_away, [], out);
        *out = kept;
        matches!(refused, Err(BindError::Serialization(_)))
    });
    refuses(|out| {
        let panics = |value: &[u8], to: &mut BytesMut| {
            to.extend_from_slice(value);
            assert!(!value.is_empty(), "no value");
            Ok(IsNull::No)
        };
        let values = [&b"a value"[..], b""];
        let call = AssertUnwindSafe(|| bind("", "", [], values, panics, [], out));
        catch_unwind(call).is_err()
    });
    refuses(|out| {
        let refused = bind("\0", "", [], [(); 0], fails, [], out);
        matches!(refused, Err(BindError::Serialization(_)))
    });
}
