//! The codecs, on the bytes that go between two sides.

use bytes::{Bytes, BytesMut};
use pgmsg::backend::{self, Authentication, TransactionStatus};
use pgmsg::codec::{ClientCodec, ServerCodec, SharedFrame};
use pgmsg::frontend::{self, Startup};
use pgmsg::Value;
use std::io;
use tokio_util::codec::{Decoder, Encoder};

/// All messages of a stream that comes in pieces of a size, up to a fault.
fn decoded(
    codec: &mut impl Decoder<Item = SharedFrame, Error = io::Error>,
    stream: &[u8],
    size: usize,
) -> io::Result<Vec<SharedFrame>> {
    let (mut came, mut frames) = (BytesMut::new(), Vec::new());
    for piece in stream.chunks(size) {
        came.extend_from_slice(piece);
        while let Some(frame) = codec.decode(&mut came)? {
            frames.push(frame);
        }
    }
    match codec.decode_eof(&mut came)? {
        None => Ok(frames),
        Some(frame) => panic!("{frame:?} after the last one"),
    }
}

#[test]
fn what_a_client_says_in_pieces_of_any_size() {
    let long = "x".repeat(300_000);
    let messages = [
        frontend::Message::Startup(Startup::new(&[("user", "ann")])),
        frontend::Message::Query("".into()),
        frontend::Message::Query((&long).into()),
    ];
    let (mut client, mut out) = (ClientCodec::new(), BytesMut::new());
    for message in messages.clone() {
        client.encode(message, &mut out).expect("no refusal");
    }
    let end = SharedFrame { tag: None, bytes: Bytes::from_static(b"X\0\0\0\x04"), offset: 0 };
    client.encode(end, &mut out).expect("no refusal");
    for size in [1, 7, 1 << 16, out.len()] {
        let frames = decoded(&mut ServerCodec::with_limit(1 << 20), &out, size).expect("no fault");
        let read = frames.iter().map(|it| frontend::Message::read(&it.frame()).expect("no fault"));
        let due = messages.clone().into_iter().chain([frontend::Message::Terminate]);
        assert!(read.eq(due));
        let offsets: Vec<_> = frames.iter().map(|it| it.offset).collect();
        assert_eq!(offsets, [0, 18, 24, 300_030]);
        assert_eq!(
            format!("{:?}", frames[3]),
            "Frame { tag: Some('X'), length: 5, offset: 300030, .. }"
        );
    }
}

#[test]
fn what_a_server_says() {
    let messages = [
        backend::Message::Authentication(Authentication::Ok),
        backend::Message::DataRow(["a".into(), Value::NULL].into()),
        backend::Message::ReadyForQuery(TransactionStatus::Idle),
    ];
    let mut out = BytesMut::new();
    for message in messages.clone() {
        ServerCodec::new().encode(message, &mut out).expect("no refusal");
    }
    let frames = decoded(&mut ClientCodec::new(), &out, 4).expect("no fault");
    let read = frames.iter().map(|it| backend::Message::read(&it.frame()).expect("no fault"));
    assert!(read.eq(messages));
}

#[test]
fn faults_are_errors_of_input_and_output() {
    let refused =
        ClientCodec::new().encode(frontend::Message::Query("\0".into()), &mut BytesMut::new());
    assert_eq!(refused.unwrap_err().kind(), io::ErrorKind::InvalidInput);
    let broken = b"\0\0\0\x09\0\x03\0\0\0!\0\0\0\x04";
    let fault =
        decoded(&mut ServerCodec::default(), broken, 4).expect_err("no client sends the tag");
    assert_eq!(fault.kind(), io::ErrorKind::InvalidData);
    assert_eq!(fault.to_string(), "unknown message type: 33");
    assert!(decoded(&mut ServerCodec::new(), &broken[..6], 4).is_err(), "a message is cut off");
}

#[test]
fn room_is_made_as_the_bytes_come() {
    let mut stream = BytesMut::from(&b"d\x7f\xff\xff\xff"[..]);
    assert_eq!(ClientCodec::new().decode(&mut stream).expect("no fault"), None);
    assert!(stream.capacity() < 1 << 22);
    assert!(ClientCodec::with_limit(100).decode(&mut stream).is_err());
    assert_eq!(stream.len(), 5);
}
