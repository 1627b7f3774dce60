//! Streams that are passed on. What the core's relay makes of each of them, whatever the pieces, its own tests have
//! (`relay` of pg_frames): here are what the crate puts around it, and random streams.

mod common;

use common::Numbers;
use pgmsg::relay::*;
use pgmsg::{Decoder, Fault, Next, Refusal};

/// The most bytes of a message that is taken whole.
const LIMIT: usize = 1 << 16;

/// An SSLRequest and a Startup by hand.
const FIRSTS: [&[u8]; 2] = [b"\0\0\0\x08\x04\xd2\x16\x2f", b"\0\0\0\x12\0\x03\0\0user\0ann\0\0"];

/// A server's stream of three messages.
const STREAM: &[u8] = b"1\0\0\0\x04D\0\0\0\x06\0\0Z\0\0\0\x05I";

/// A random choice of tags.
fn wanted(numbers: &mut Numbers) -> Wanted {
    match numbers.below(4) {
        0 => Wanted::ALL,
        1 => Wanted::NONE,
        _ => Wanted::tags(&numbers.bytes(100)),
    }
}

#[test]
fn random_streams_pass_unchanged_and_messages_that_are_wanted_come_whole() {
    let mut numbers = Numbers::new(0x9e37_79b9_7f4a_7c15);
    for turn in 0..2000 {
        let (wanted, mut stream) = (wanted(&mut numbers), Vec::new());
        let (mut relay, mut decoder) = (Relay::of_server(LIMIT, wanted), Decoder::of_server());
        if turn % 2 == 1 {
            (relay, decoder) = (Relay::of_client(LIMIT, wanted), Decoder::of_client());
            stream = [FIRSTS[0].repeat(numbers.below(3)), FIRSTS[1].to_vec()].concat();
        }
        stream.extend(numbers.stream(b"QDdH"));
        let (mut out, mut whole, mut came, mut passed) = (Vec::new(), Vec::new(), 0, Ok(()));
        for piece in stream.chunks(numbers.below(40) + 1) {
            came += piece.len();
            passed = relay.pass(piece, &mut out, |frame| {
                whole.push(frame.bytes.to_vec());
                Ok(Answer::Keep)
            });
            if passed.is_err() {
                break;
            }
        }
        out.extend(relay.held());
        assert!(stream[..came].starts_with(&out));
        assert!(passed.is_err() || out == stream);
        let (mut rest, mut due) = (&stream[..], Vec::new());
        while let Ok(Next::Frame(frame)) = decoder.next(rest) {
            due.extend(Some(frame.bytes).filter(|_| frame.tag.is_none_or(|tag| wanted.wants(tag))));
            rest = &rest[frame.bytes.len()..];
        }
        assert!(whole.starts_with(&due.iter().map(|it| it.to_vec()).collect::<Vec<_>>()));
    }
}

#[test]
fn frames_have_a_tag_an_offset_and_a_body() {
    let mut relay = Relay::of_client(LIMIT, Wanted::ALL);
    let mut found = Vec::new();
    let stream = [FIRSTS[1], b"Q\0\0\0\x0dSELECT 1\0"].concat();
    for byte in stream.chunks(1) {
        let passed = relay.pass(byte, &mut Vec::new(), |frame| {
            found.push((frame.tag, frame.offset, frame.body().to_vec()));
            Ok(Answer::Keep)
        });
        passed.expect("no fault");
    }
    let due = [(None, 0, FIRSTS[1][4..].to_vec()), (Some(b'Q'), 18, b"SELECT 1\0".to_vec())];
    assert_eq!(found, due);
}

#[test]
fn what_is_wanted_may_change() {
    let mut relay = Relay::of_server(LIMIT, Wanted::NONE);
    let row = b"D\0\0\0\x051";
    assert_eq!(relay.next(&mut &row[..]), Ok(Some(Event::Part { bytes: row, left: 0 })));
    relay.want(Wanted::tags(b"D"));
    assert!(
        matches!(relay.next(&mut &row[..]), Ok(Some(Event::Frame(frame))) if frame.bytes == row)
    );
    assert_eq!(format!("{:?}", relay.wanted()), "Wanted(b\"D\")");
    assert_eq!(relay.limit(), LIMIT);
}

/// What goes out of the stream in pieces of a size, where its row is answered so.
fn answered(size: usize, answer: &Answer) -> Result<Vec<u8>, Fault> {
    let mut relay = Relay::of_server(100, Wanted::tags(b"D"));
    let mut out = Vec::new();
    for piece in STREAM.chunks(size) {
        relay.pass(piece, &mut out, |_| Ok(answer.clone()))?;
    }
    Ok(out)
}

#[test]
fn each_answer_whatever_the_pieces() {
    let (front, row, end) = (&STREAM[..5], &STREAM[5..12], &STREAM[12..]);
    let added = b"N\0\0\0\x05\0n\0\0\0\x04".to_vec();
    let answers = [
        (Answer::Keep, row.to_vec()),
        (Answer::Omit, vec![]),
        (Answer::Replace(added.clone()), added.clone()),
        (Answer::AddBefore(added.clone()), [&added, row].concat()),
        (Answer::AddAfter(added.clone()), [row, &added].concat()),
    ];
    for (answer, due) in answers {
        for size in 1..=STREAM.len() {
            assert_eq!(answered(size, &answer), Ok([front, &due, end].concat()));
        }
    }
    for answer in [Answer::Replace, Answer::AddBefore, Answer::AddAfter] {
        let fault = answered(4, &answer(added[..7].to_vec())).expect_err("a fault");
        assert_eq!(fault.refusal, Refusal::NotFrames);
    }
}

#[test]
fn a_stream_without_tags_goes_on_as_it_does() {
    let passed = |answer: &Answer| {
        let (mut relay, mut out) = (Relay::of_client(100, Wanted::NONE), Vec::new());
        let startup = |frame: pgmsg::Frame<'_>| match frame.bytes == FIRSTS[1] {
            true => Ok(answer.clone()),
            false => Ok(Answer::Keep),
        };
        relay.pass(&FIRSTS.concat(), &mut out, startup).map_err(|fault| fault.refusal).map(|()| out)
    };
    let before = Answer::AddBefore(FIRSTS[0].to_vec());
    assert_eq!(passed(&before), Ok([FIRSTS[0], FIRSTS[0], FIRSTS[1]].concat()));
    assert_eq!(passed(&Answer::Omit), Err(Refusal::NotFrames));
    assert_eq!(passed(&Answer::AddAfter(FIRSTS[0].to_vec())), Err(Refusal::NotFrames));
}

#[test]
fn faults_have_a_class() {
    let refused = |mut relay: Relay, bytes: &[u8]| {
        let mut piece = bytes;
        let fault = relay.next(&mut piece).expect_err("a fault");
        assert_eq!((piece, fault.words.is_empty()), (bytes, false));
        fault.refusal
    };
    let (server, client) = (Relay::of_server, Relay::of_client);
    assert_eq!(refused(server(5, Wanted::ALL), b"D\0\0\0\x06"), Refusal::FrameTooLong);
    assert_eq!(refused(server(LIMIT, Wanted::NONE), b"D\0\0\0\x03"), Refusal::BadLength);
    assert_eq!(refused(client(LIMIT, Wanted::NONE), b"\0\0\0\x07"), Refusal::BadLength);
    let mut out = Vec::new();
    let passed = server(100, Wanted::ALL).pass(STREAM, &mut out, |frame| match frame.tag {
        Some(b'D') => Err(Refusal::OutOfMemory.into()),
        _ => Ok(Answer::Keep),
    });
    assert_eq!((passed, &out[..]), (Err(Refusal::OutOfMemory.into()), &STREAM[..5]));
}
