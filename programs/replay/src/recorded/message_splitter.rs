//! A client's or a server's stream cut into messages.

use super::{HEAD, MESSAGE_MOST};
use pgmsg::{Decoder, Fault, Next};

/// What is cut off a stream.
#[derive(Clone, Copy, Debug, PartialEq, Eq)]
pub enum MessageSlice<'a> {
    /// A whole message of up to `MESSAGE_MOST` bytes, from its tag on, or from its length on where it has none.
    Whole(&'a [u8]),
    /// The next bytes of a longer message, the first from its tag on, and how many of it follow.
    Part(&'a [u8], usize),
}

/// Cuts a stream that comes in pieces. Only the front of a message that isn't whole is held.
#[derive(Debug)]
pub struct MessageSplitter {
    decoder: Decoder,
    held: Vec<u8>,
    is_given: bool,
    /// How many bytes of a long message are to come.
    left: usize,
}

impl MessageSplitter {
    /// Of a client, from its message without a tag on.
    pub fn of_connection() -> MessageSplitter {
        MessageSplitter::new(Decoder::of_client())
    }

    /// Of a client, from a message with a tag on.
    pub fn of_client() -> MessageSplitter {
        MessageSplitter::new(Decoder::of_open_client())
    }

    pub fn of_server() -> MessageSplitter {
        MessageSplitter::new(Decoder::of_server())
    }

    fn new(decoder: Decoder) -> MessageSplitter {
        MessageSplitter { decoder, held: Vec::new(), is_given: false, left: 0 }
    }

    /// Whether a message has begun that isn't whole.
    pub fn is_within(&self) -> bool {
        self.left > 0 || (!self.held.is_empty() && !self.is_given)
    }

    /// Takes the front of a piece off it. `None` where the piece is empty then, and more is needed.
    pub fn cut<'a, 'p: 'a>(
        &'a mut self,
        piece: &mut &'p [u8],
    ) -> Result<Option<MessageSlice<'a>>, Fault> {
        if self.is_given {
            self.held.clear();
            self.is_given = false;
        }
        if self.left > 0 {
            return Ok(self.part(piece));
        }
        while !self.held.is_empty() {
            let needed = needed(&mut self.decoder, &self.held)?;
            if needed > MESSAGE_MOST && self.held.len() >= HEAD {
                self.left = needed - self.held.len();
                self.is_given = true;
                return Ok(Some(MessageSlice::Part(&self.held, self.left)));
            }
            let missing = needed.saturating_sub(self.held.len());
            if missing == 0 {
                self.is_given = true;
                return Ok(Some(MessageSlice::Whole(&self.held)));
            }
            if piece.is_empty() {
                return Ok(None);
            }
            let (bytes, rest) = piece.split_at(missing.min(piece.len()));
            self.held.extend_from_slice(bytes);
            *piece = rest;
        }
        self.cut_in_piece(piece)
    }

    /// Where nothing is held.
    fn cut_in_piece<'a, 'p: 'a>(
        &'a mut self,
        piece: &mut &'p [u8],
    ) -> Result<Option<MessageSlice<'a>>, Fault> {
        if piece.is_empty() {
            return Ok(None);
        }
        let needed = needed(&mut self.decoder, piece)?;
        if needed <= piece.len() {
            let (bytes, rest) = piece.split_at(needed);
            *piece = rest;
            return Ok(Some(MessageSlice::Whole(bytes)));
        }
        if needed > MESSAGE_MOST && piece.len() >= HEAD {
            self.left = needed;
            return Ok(self.part(piece));
        }
        self.held.extend_from_slice(piece);
        *piece = &[];
        Ok(None)
    }

    fn part<'p>(&mut self, piece: &mut &'p [u8]) -> Option<MessageSlice<'p>> {
        if piece.is_empty() {
            return None;
        }
        let (bytes, rest) = piece.split_at(self.left.min(piece.len()));
        self.left -= bytes.len();
        *piece = rest;
        Some(MessageSlice::Part(bytes, self.left))
    }
}

/// How many bytes the message at the front of a stream has, or are needed at least. The decoder goes on after one that is
/// whole.
fn needed(decoder: &mut Decoder, stream: &[u8]) -> Result<usize, Fault> {
    Ok(match decoder.next(stream)? {
        Next::Frame(frame) => frame.bytes.len(),
        Next::Incomplete { needed, .. } => needed,
    })
}

#[cfg(test)]
mod tests {
    use super::*;

    /// What is cut off a stream in pieces of a length: the bytes of each message.
    fn messages(stream: &[u8], step: usize) -> Vec<Vec<u8>> {
        let (mut splitter, mut all) = (MessageSplitter::of_client(), Vec::new());
        let mut is_within = false;
        for mut piece in stream.chunks(step) {
            while let Some(cut) = splitter.cut(&mut piece).expect("messages") {
                match cut {
                    MessageSlice::Whole(bytes) => all.push(bytes.to_vec()),
                    MessageSlice::Part(bytes, left) => {
                        if !is_within {
                            all.push(Vec::new());
                        }
                        is_within = left > 0;
                        all.last_mut().expect("a message").extend_from_slice(bytes);
                    }
                }
            }
        }
        all
    }

    #[test]
    fn messages_are_the_same_wherever_the_stream_is_cut() {
        let mut long = b"d".to_vec();
        long.extend_from_slice(&(MESSAGE_MOST as u32 + 100).to_be_bytes());
        long.resize(MESSAGE_MOST + 101, b'x');
        let parts: [&[u8]; 4] = [b"Q\0\0\0\x0dSELECT 1\0", &long, b"S\0\0\0\x04", b"X\0\0\0\x04"];
        let stream = parts.concat();
        for step in [1, 2, 3, 5, 7, 11, 4096, MESSAGE_MOST, stream.len()] {
            assert!(messages(&stream, step).iter().eq(parts.iter()), "{step}");
        }
    }
}
