//! A direction of a connection: where its messages begin, and what is held of one that isn't whole.

use crate::event::{EventKind, RawMessage};
use crate::event_queue::EventQueue;
use pgmsg::{Decoder, Next};
use recording::{Side, MESSAGE_HEAD};
use std::borrow::Cow;

/// The longest message that is taken whole.
pub const LONGEST: usize = 4 << 20;

/// How the bytes of a direction go on.
#[derive(Clone, Copy, Debug, PartialEq, Eq)]
pub enum StreamMode {
    Messages,
    /// So many bytes are left of a message that isn't taken whole.
    Parts(usize),
    /// The side broke the protocol.
    Broken,
}

/// Where a direction of a connection stands.
pub struct StreamState {
    pub decoder: Decoder,
    pub mode: StreamMode,
    /// The front of a message that isn't whole.
    pub held: Vec<u8>,
    /// The numbers of the entries that wait for it; none where its bytes are given as they come.
    pub parts: Vec<u64>,
}

impl StreamState {
    pub fn new(side: Side) -> StreamState {
        let decoder = match side {
            Side::Client => Decoder::of_client(),
            Side::Server => Decoder::of_server(),
        };
        StreamState { decoder, mode: StreamMode::Messages, held: Vec::new(), parts: Vec::new() }
    }

    /// Goes on after a message of so many bytes, which come as they are, and of which some are there.
    pub fn pass(&mut self, needed: usize, there: usize) {
        self.decoder.advance(needed);
        // Its room isn't kept: many may be open.
        self.held = Vec::new();
        self.mode = StreamState::mode_with(needed.saturating_sub(there));
    }

    /// The mode with so many bytes left of a message.
    pub fn mode_with(left: usize) -> StreamMode {
        match left {
            0 => StreamMode::Messages,
            left => StreamMode::Parts(left),
        }
    }

    /// Gives what is held of a message as bytes; the rest of it is given as it comes.
    pub fn give_up(&mut self, queue: &mut EventQueue) {
        if self.parts.is_empty() {
            return;
        }
        let mut rest = &self.held[..];
        for number in std::mem::take(&mut self.parts) {
            if let Some(part) = queue.part(number) {
                let (bytes, after) = rest.split_at(part.len.min(rest.len()));
                rest = after;
                queue.settle(number, part, part.bytes(bytes).into_owned());
            }
        }
        let there = self.held.len();
        match self.decoder.next(&self.held) {
            Ok(Next::Incomplete { tag: Some(_), needed }) if there >= MESSAGE_HEAD => {
                self.pass(needed, there)
            }
            _ => {}
        }
    }

    /// Looks at a message that is held, to which bytes came.
    pub fn judge(&mut self, side: Side, queue: &mut EventQueue) {
        match self.decoder.next(&self.held) {
            Ok(Next::Frame(frame)) => {
                let tag = frame.tag;
                let message = RawMessage { tag, bytes: Cow::Owned(std::mem::take(&mut self.held)) };
                settle(&std::mem::take(&mut self.parts), message, side, queue);
            }
            Ok(Next::Incomplete { tag: Some(_), needed }) if self.held.len() >= MESSAGE_HEAD => {
                if needed > LONGEST {
                    self.give_up(queue);
                } else if self.parts.is_empty() {
                    self.pass(needed, self.held.len());
                }
            }
            Ok(Next::Incomplete { .. }) => {}
            Err(_) => {
                self.give_up(queue);
                self.mode = StreamMode::Broken;
            }
        }
    }
}

/// Puts a message that is whole in the place of its parts.
fn settle(parts: &[u64], message: RawMessage<'static>, side: Side, queue: &mut EventQueue) {
    let mut message = Some(message);
    for (at, &number) in parts.iter().enumerate() {
        let part = match queue.part(number) {
            Some(part) => part,
            None => continue,
        };
        let is_last = at + 1 == parts.len();
        let kind = match message.take() {
            Some(message) => EventKind::Message { side, message, here: part.len },
            None => EventKind::Continued { side, here: Some(part.len).filter(|_| !is_last) },
        };
        queue.settle(number, part, part.event(kind));
    }
}
