//! Bytes that nobody of the protocol sends: no reader panics, the cells of a row lie within the bytes, and what
//! a reader takes is what the crate writes of it.

mod common;

use common::{checked, samples, Numbers};
use pgmsg::backend::{self, end, rows_affected, RowIndex, Severity};
use pgmsg::frontend::{self, SaslInitialResponse};
use pgmsg::Refusal;

/// The bodies of all messages of either side.
fn bodies() -> Vec<&'static [u8]> {
    let of_server = samples::of_server().into_iter().map(|(bytes, _)| &bytes[5..]);
    let of_client = samples::of_client().into_iter();
    let of_client =
        of_client.map(|(bytes, message)| &bytes[4 + usize::from(message.tag().is_some())..]);
    of_server.chain(of_client).collect()
}

/// The tags of either side, and one that is of neither.
const TAGS: &[u8] = b"RK23CdcGHWDIEnNAtS1sZTBFPQXfp!";

/// Reads a body as a client's message. Whatever is taken is written as it was.
fn read_of_client(tag: Option<u8>, body: &[u8]) {
    let Some(message) = checked(body, frontend::Message::read_body(tag, body)) else { return };
    let mut out = Vec::new();
    assert_eq!(message.write(&mut out), Ok(()));
    assert_eq!(out[4 + usize::from(tag.is_some())..], *body);
}

/// Reads a body as a server's message. Whatever is taken is written so that it is read as the same; and it
/// is as it was, where nothing follows its parts.
fn read_of_server(tag: u8, body: &[u8]) {
    let Some(message) = checked(body, backend::Message::read_body(Some(tag), body)) else { return };
    let mut out = Vec::new();
    match message.write(&mut out) {
        Ok(()) => {
            let again = backend::Message::read_body(Some(tag), &out[5..]);
            assert_eq!(again.as_ref(), Ok(&message));
        }
        // A server's list may end in an empty name, and a field of 0 is none.
        Err(refusal) => assert_eq!(refusal, Refusal::TextHoldsNul, "{message:?}"),
    }
}

/// Passes a body to every reader.
fn read_all(reader: &mut RowIndex, body: &[u8]) {
    for &tag in TAGS {
        read_of_client(Some(tag), body);
        read_of_server(tag, body);
        if let Some(at) = checked(body, end(tag, body)) {
            assert!(at <= body.len());
        }
    }
    read_of_client(None, body);
    if let Some(row) = checked(body, reader.read(body)) {
        let (outer, values) = (body.as_ptr_range(), row.iter().flatten());
        let mut values = values.map(<[u8]>::as_ptr_range);
        assert!(values.all(|value| outer.start <= value.start && value.end <= outer.end));
        let ranges = row.places().iter().map(|place| place.range());
        assert!(ranges.map(|range| Some(&body[range?])).eq(row.iter()));
    }
    if let Some(initial) = checked(body, SaslInitialResponse::read(body)) {
        let mut out = Vec::new();
        initial.write(&mut out).expect("it can be written");
        assert_eq!(out[5..], *body);
    }
    checked(body, Severity::read(body));
    rows_affected(body);
}

#[test]
fn every_truncation_of_every_body() {
    let mut reader = RowIndex::new();
    for body in bodies() {
        for len in 0..=body.len() {
            read_all(&mut reader, &body[..len]);
        }
    }
}

#[test]
fn every_byte_of_every_body_replaced() {
    let mut reader = RowIndex::new();
    for body in bodies() {
        for at in 0..body.len() {
            let mut broken = body.to_vec();
            for byte in [0, 1, 3, b'S', b',', b'=', 0x7f, 0x80, 0xfe, 0xff] {
                broken[at] = byte;
                read_all(&mut reader, &broken);
            }
        }
    }
}

#[test]
fn random_bodies() {
    let mut numbers = Numbers::new(0x9e37_79b9_7f4a_7c15);
    let (bodies, mut reader) = (bodies(), RowIndex::new());
    for _ in 0..2_000 {
        let len = numbers.below(64);
        let mut body = numbers.bytes(len);
        read_all(&mut reader, &body);
        let start = bodies[numbers.below(bodies.len())];
        body.splice(..0, start[..numbers.below(start.len() + 1)].iter().copied());
        read_all(&mut reader, &body);
    }
}

#[test]
fn a_body_beyond_the_limit_is_refused() {
    // Pages of zeros that nobody touches take no memory.
    let body = vec![0; i32::MAX as usize - 3];
    for tag in *b"RKCGWDAtSZT" {
        let read = backend::Message::read_body(Some(tag), &body);
        assert_eq!(common::fault_of(read).0, Refusal::BodyTooLong, "{tag}");
    }
    for tag in [None].into_iter().chain(b"BCfDEHFPQSX".iter().copied().map(Some)) {
        let fault = frontend::Message::read_body(tag, &body).expect_err("it is too long");
        let words = "message body out of range for protocol: 2147483644";
        assert_eq!((fault.refusal, fault.words.as_str()), (Refusal::BodyTooLong, words));
    }
}
