//! Where messages are in the bytes of a direction, of which only heads are looked at, and what of them is recorded.

use pgmsg::{Decoder, Next};
use recording::{RecordKind, Side, MESSAGE_HEAD};
use std::ops::Range;

/// The bytes that say what an Authentication asks for: its head and its method.
const METHOD_END: usize = MESSAGE_HEAD + 4;
/// The methods whose content belongs to a secret: GSSContinue, SASL, SASLContinue, SASLFinal.
const SECRET: [u32; 4] = [8, 10, 11, 12];
const SASL: u32 = 10;
/// The longest list of mechanisms that is looked at.
const MECHANISMS_MOST: usize = 4096;

/// A record of bytes that were scanned, by their places.
#[derive(Clone, Debug, PartialEq, Eq)]
pub struct RecordSpan {
    pub kind: RecordKind,
    pub range: Range<usize>,
}

/// What is found in some bytes.
#[derive(Debug, Default)]
pub struct Scan {
    pub spans: Vec<RecordSpan>,
    /// Whole messages of SASL with the list of mechanisms.
    pub mechanisms: Vec<Range<usize>>,
}

impl Scan {
    pub fn clear(&mut self) {
        self.spans.clear();
        self.mechanisms.clear();
    }
}

/// Follows one direction of a connection.
#[derive(Debug)]
pub struct Framer {
    side: Side,
    /// Passwords and the like are left out.
    leaves_out: bool,
    /// Lists of mechanisms are wanted whole.
    wants_mechanisms: bool,
    /// Cuts the bytes into messages, whose offsets aren't looked at.
    decoder: Decoder,
    /// How much comes of the message at hand, and whether that is left out.
    left: usize,
    is_left_out: bool,
    /// The side broke the protocol; its bytes pass as they come.
    is_broken: bool,
}

/// What is at the front.
enum FrontMessage {
    Incomplete,
    Broken,
    Recorded(usize),
    LeftOut(usize),
}

impl Framer {
    /// Follows a direction from its first byte on.
    #[cfg(test)]
    pub fn new(side: Side, leaves_out: bool, wants_mechanisms: bool) -> Framer {
        Framer::of(decoder_of(side), side, leaves_out, wants_mechanisms)
    }

    /// Follows a direction by what cuts it from there on.
    pub fn of(decoder: Decoder, side: Side, leaves_out: bool, wants_mechanisms: bool) -> Framer {
        Framer {
            side,
            leaves_out,
            wants_mechanisms,
            decoder,
            left: 0,
            is_left_out: false,
            is_broken: false,
        }
    }

    /// Finds the records of some bytes that follow those that were taken before, and answers how many are taken: up to a
    /// message of which too little is there, which is less than `MECHANISMS_MOST` bytes. At the end of the direction all
    /// are taken.
    pub fn scan(&mut self, bytes: &[u8], is_end: bool, found: &mut Scan) -> usize {
        found.clear();
        let (mut at, mut shown) = (0, 0);
        while at < bytes.len() && !self.is_broken {
            if self.left == 0 {
                match self.look(&bytes[at..], at, found) {
                    FrontMessage::Incomplete => break,
                    FrontMessage::Broken => self.is_broken = true,
                    FrontMessage::Recorded(length) => self.left = length,
                    FrontMessage::LeftOut(length) => {
                        self.push(found, shown..at);
                        let range = at..at + MESSAGE_HEAD;
                        found
                            .spans
                            .push(RecordSpan { kind: RecordKind::LeftOut(self.side), range });
                        (self.left, self.is_left_out) = (length, true);
                    }
                }
            }
            at += self.skip(bytes.len() - at);
            shown = if self.is_left_out { at } else { shown };
            self.is_left_out &= self.left > 0;
        }
        if self.is_broken || is_end {
            at = bytes.len();
        }
        self.push(found, shown..at);
        at
    }

    /// Passes over the bytes of the message at hand.
    fn skip(&mut self, len: usize) -> usize {
        let count = self.left.min(len);
        self.left -= count;
        count
    }

    fn push(&self, found: &mut Scan, range: Range<usize>) {
        if !range.is_empty() {
            found.spans.push(RecordSpan { kind: RecordKind::Bytes(self.side), range });
        }
    }

    fn look(&mut self, front: &[u8], at: usize, found: &mut Scan) -> FrontMessage {
        let (tag, length) = match self.decoder.next(front) {
            Err(_) => return FrontMessage::Broken,
            Ok(Next::Frame(frame)) => (frame.tag, frame.bytes.len()),
            Ok(Next::Incomplete { tag: Some(tag), needed }) if front.len() >= MESSAGE_HEAD => {
                (Some(tag), needed)
            }
            Ok(Next::Incomplete { .. }) => return FrontMessage::Incomplete,
        };
        match (self.side, tag) {
            (Side::Client, Some(b'p')) if self.leaves_out => FrontMessage::LeftOut(length),
            (Side::Server, Some(b'R')) if length >= METHOD_END => {
                self.judge(front, at..at + length, found)
            }
            _ => FrontMessage::Recorded(length),
        }
    }

    /// Whether an Authentication is left out, by its method. A whole list of mechanisms is noted.
    fn judge(&self, front: &[u8], range: Range<usize>, found: &mut Scan) -> FrontMessage {
        let (method, length) = match *front {
            [_, _, _, _, _, a, b, c, d, ..] => (u32::from_be_bytes([a, b, c, d]), range.len()),
            _ => return FrontMessage::Incomplete,
        };
        if method == SASL && self.wants_mechanisms {
            if length <= front.len() {
                found.mechanisms.push(range);
            } else if length <= MECHANISMS_MOST {
                return FrontMessage::Incomplete;
            }
        }
        match self.leaves_out && SECRET.contains(&method) {
            true => FrontMessage::LeftOut(length),
            false => FrontMessage::Recorded(length),
        }
    }
}

/// What cuts the stream of a side into its messages.
pub fn decoder_of(side: Side) -> Decoder {
    match side {
        Side::Client => Decoder::of_client(),
        Side::Server => Decoder::of_server(),
    }
}

#[cfg(test)]
mod tests {
    use super::*;

    /// Takes a stream in pieces of a length, and gives what is recorded of it.
    fn recorded(mut framer: Framer, stream: &[u8], step: usize) -> Vec<u8> {
        let (mut held, mut out, mut found) = (Vec::new(), Vec::new(), Scan::default());
        for piece in stream.chunks(step) {
            held.extend_from_slice(piece);
            let count = framer.scan(&held, false, &mut found);
            for piece in &found.spans {
                out.extend_from_slice(&held[piece.range.clone()]);
            }
            held.drain(..count);
        }
        let count = framer.scan(&held, true, &mut found);
        assert_eq!(count, held.len());
        for piece in &found.spans {
            out.extend_from_slice(&held[piece.range.clone()]);
        }
        out
    }

    const CLIENT: &[u8] =
        b"\0\0\0\x09\0\x03\0\0\0p\0\0\0\x0bsecret\0Q\0\0\0\x0dSELECT 1\0p\0\0\0\x04X\0\0\0\x04";
    const SERVER: &[u8] =
        b"R\0\0\0\x0c\0\0\0\x0babcdR\0\0\0\x17\0\0\0\x0aSCRAM-SHA-256\0\0R\0\0\0\x08\0\0\0\0Z\0\0\0\x05I";

    #[test]
    fn passwords_are_left_out_wherever_the_stream_is_cut() {
        for step in 1..CLIENT.len() {
            let framer = Framer::new(Side::Client, true, false);
            assert_eq!(
                recorded(framer, CLIENT, step),
                b"\0\0\0\x09\0\x03\0\0\0p\0\0\0\x0bQ\0\0\0\x0dSELECT 1\0p\0\0\0\x04X\0\0\0\x04"
            );
        }
        for step in 1..SERVER.len() {
            for wants in [false, true] {
                let framer = Framer::new(Side::Server, true, wants);
                assert_eq!(
                    recorded(framer, SERVER, step),
                    b"R\0\0\0\x0cR\0\0\0\x17R\0\0\0\x08\0\0\0\0Z\0\0\0\x05I"
                );
            }
        }
    }

    #[test]
    fn all_is_recorded_where_that_is_asked_for_or_the_protocol_is_broken() {
        for step in 1..20 {
            for (side, stream) in [(Side::Client, CLIENT), (Side::Server, SERVER)] {
                assert_eq!(recorded(Framer::new(side, false, true), stream, step), stream);
            }
            let broken: &[u8] = b"GET / HTTP/1.1\r\n\r\n";
            for side in [Side::Client, Side::Server] {
                assert_eq!(recorded(Framer::new(side, true, false), broken, step), broken);
            }
        }
    }

    #[test]
    fn a_list_of_mechanisms_is_found_whole() {
        let (mut framer, mut found) = (Framer::new(Side::Server, true, true), Scan::default());
        assert_eq!(framer.scan(&SERVER[..20], false, &mut found), 13);
        assert!(found.mechanisms.is_empty());
        assert_eq!(framer.scan(&SERVER[13..], false, &mut found), SERVER.len() - 13);
        assert_eq!(found.mechanisms.first(), Some(&(0..24)));
    }

    #[test]
    fn a_request_that_is_too_short_for_its_method_lists_no_mechanisms() {
        for length in 0..8 {
            let stream = [b'R', 0, 0, 0, length, 0, 0, 0, 10];
            let (mut framer, mut found) = (Framer::new(Side::Server, true, true), Scan::default());
            framer.scan(&stream, true, &mut found);
            assert_eq!(found.mechanisms, [], "length {length}");
        }
    }
}
