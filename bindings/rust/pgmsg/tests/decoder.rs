//! Streams of either side, cut anywhere.

mod common;

use common::{fault_of, Numbers};
use pgmsg::frontend::{copy_head, Message, MAX_FIRST_LENGTH};
use pgmsg::{Decoder, Next, Refusal};

/// A Startup by hand.
const STARTUP: &[u8] = b"\0\0\0\x12\0\x03\0\0user\0ann\0\0";

#[test]
fn incomplete_messages_say_their_tag_and_how_many_bytes_they_need() {
    let message = b"S\0\0\0\x11TimeZone\0UTC\0";
    for mut decoder in [Decoder::of_server(), Decoder::of_open_client()] {
        for len in 0..message.len() {
            let needed = if len < 5 { 5 } else { message.len() };
            let tag = Some(b'S').filter(|_| len > 0);
            let next = decoder.next(&message[..len]);
            assert_eq!(next, Ok(Next::Incomplete { tag, needed }));
            assert_eq!(next.map(Next::frame), Ok(None));
        }
        let longest = Next::Incomplete { tag: Some(b'd'), needed: 1 << 31 };
        assert_eq!(decoder.next(b"d\x7f\xff\xff\xff"), Ok(longest));
        let head = copy_head(3).expect("it is short");
        let part = Next::Incomplete { tag: Some(b'd'), needed: 8 };
        assert_eq!(decoder.next(&head), Ok(part));
        assert_eq!(decoder.offset(), 0);
        assert!(!decoder.expects_first());
    }
    let mut decoder = Decoder::of_client();
    for len in 0..18 {
        let needed = if len < 4 { 4 } else { 18 };
        let part = Next::Incomplete { tag: None, needed };
        assert_eq!(decoder.next(&STARTUP[..len]), Ok(part));
        assert!(decoder.expects_first());
    }
}

#[test]
fn broken_streams() {
    let refused = |mut decoder: Decoder, bytes| fault_of(decoder.next(bytes));
    let sides = [Decoder::of_server(), Decoder::of_open_client()];
    for decoder in sides.clone() {
        assert_eq!(refused(decoder.clone(), b"S\0\0\0\x03"), (Refusal::BadLength, 0));
        assert_eq!(refused(decoder, b"S\xff\xff\xff\xff"), (Refusal::BadLength, 0));
    }
    assert_eq!(refused(sides[1].clone(), b"!\0\0\0\x04"), (Refusal::UnknownMessageType, 0));
    let first = Decoder::of_client();
    assert_eq!(refused(first.clone(), b"\0\0\0\x07"), (Refusal::BadLength, 0));
    assert_eq!(refused(first, b"\0\0\x27\x15"), (Refusal::FirstTooLong, 0));
    let longest = Decoder::of_client().next(b"\0\0\x27\x14");
    assert_eq!(longest, Ok(Next::Incomplete { tag: None, needed: MAX_FIRST_LENGTH }));
}

#[test]
fn messages_above_a_limit_are_refused_by_their_head() {
    let message = b"Q\0\0\0\x0dSELECT 1\0";
    for side in [Decoder::of_server(), Decoder::of_open_client()] {
        let next = |limit| side.clone().with_limit(limit).next(message).map(|_| ());
        assert_eq!(next(14), Ok(()));
        assert_eq!(fault_of(next(13)), (Refusal::FrameTooLong, 0));
        let mut decoder = side.clone().with_limit(13);
        assert_eq!(fault_of(decoder.next(&message[..5])), (Refusal::FrameTooLong, 0));
    }
}

#[test]
fn an_unknown_first_message_is_followed_by_messages_with_tags() {
    let mut decoder = Decoder::of_client();
    let frame = decoder.next(b"\0\0\0\x08\0\x02\0\0").map(Next::frame);
    let frame = frame.expect("no fault").expect("it is whole");
    assert_eq!(fault_of(Message::read(&frame)), (Refusal::UnknownCode, 0));
    assert!(!decoder.expects_first());
    assert_eq!(format!("{frame:?}"), "Frame { tag: None, length: 8, offset: 0, .. }");
}

#[test]
fn random_streams() {
    let mut numbers = Numbers::new(0xd1b5_4a32_d192_ed03);
    let tags = b"RK23CdcGHDIEnNAtS1sZTBFPQXfp!";
    for turn in 0..40_000 {
        let stream = numbers.stream(tags);
        let mut decoder = match turn % 3 {
            0 => Decoder::of_server(),
            1 => Decoder::of_open_client(),
            _ => Decoder::of_client(),
        };
        let mut rest = &stream[..];
        loop {
            let offset = stream.len() - rest.len();
            match common::checked(rest, decoder.next(rest)) {
                Some(Next::Frame(frame)) => {
                    let (bytes, after) = rest.split_at(frame.bytes.len());
                    assert_eq!((frame.bytes, frame.offset), (bytes, offset as u64));
                    rest = after;
                }
                Some(Next::Incomplete { needed, .. }) => break assert!(rest.len() < needed),
                None => break,
            }
        }
    }
}
