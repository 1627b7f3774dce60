//! A stream that is passed on message by message: the core of a proxy or a pooler.
//!
//! A [`Relay`] takes the bytes of one direction of a connection in pieces of any length, and gives back
//! what goes out: each message whole that its user wants whole, and of all others the bytes as they
//! come. [`Relay::pass`] asks for an [`Answer`] to each whole message, by which it goes out as it came,
//! or not at all, or other messages go out in its place, before it or after it.
//!
//! ```
//! use pgmsg::backend::{Field, FieldKind, Message};
//! use pgmsg::relay::{Answer, Relay, Wanted};
//!
//! // A server's stream, in which no client sees the text of an error.
//! let mut relay = Relay::of_server(1 << 20, Wanted::tags(b"E"));
//! let mut out = Vec::new();
//! for piece in [&b"1\0\0\0\x04E\0\0"[..], b"\0\x0dMsecret\0\0Z\0\0\0\x05I"] {
//!     relay.pass(piece, &mut out, |_| {
//!         let mut other = Vec::new();
//!         Message::ErrorResponse([Field::new(FieldKind::Message, "no")].into()).write(&mut other)?;
//!         Ok(Answer::Replace(other))
//!     })?;
//! }
//! assert_eq!(out, b"1\0\0\0\x04E\0\0\0\x09Mno\0\0Z\0\0\0\x05I");
//! # Ok::<(), pgmsg::Fault>(())
//! ```

mod answer;
mod wanted;

pub use answer::{check_frames, Answer};
pub use wanted::Wanted;

use crate::error::{Fault, Refusal};
use crate::frame::Frame;
use alloc::vec::Vec;
use core::fmt;
use pgmsg_core::pg_frames::frontend::Expects;
use pgmsg_core::pg_frames::relay::{self as core_relay, FrameBytes, Step};

/// What comes of the bytes that a relay takes.
#[derive(Clone, Copy, Debug, PartialEq, Eq)]
#[non_exhaustive]
pub enum Event<'a> {
    /// A whole message. It goes out as it is, or what its user puts in its place.
    Frame(Frame<'a>),
    /// The next bytes of a message that is not wanted whole. They go out as they are.
    Part {
        /// The bytes.
        bytes: &'a [u8],
        /// How many bytes of the message are still to come.
        left: usize,
    },
}

/// Takes the bytes of one direction of a connection in pieces, and gives back what goes out.
///
/// A message that lies in one piece is given where it lies. Only the front of a message that goes on
/// after the piece is held, and only where it is wanted whole and has no more bytes than the limit.
/// Memory is asked for as these bytes come, and never for a length that a message announces.
pub struct Relay {
    relay: core_relay::Relay,
    wanted: Wanted,
    /// The bytes that were given last, where they came in several pieces.
    joined: FrameBytes<'static>,
    /// How many bytes have been given.
    offset: u64,
}

impl Relay {
    /// A relay of a server's stream, from a message with a tag on, that takes messages of up to `limit`
    /// bytes whole, tag and length among them.
    ///
    /// The single byte by which a server answers a request for encryption is no part of its stream.
    pub fn of_server(limit: usize, wanted: Wanted) -> Relay {
        Relay::new(core_relay::Relay::of_server(Default::default(), limit), wanted)
    }

    /// A relay of a client's stream from the start of a connection, that takes messages of up to `limit`
    /// bytes whole. Those without a tag always come whole.
    pub fn of_client(limit: usize, wanted: Wanted) -> Relay {
        Relay::new(core_relay::Relay::of_client(Default::default(), limit), wanted)
    }

    fn new(relay: core_relay::Relay, wanted: Wanted) -> Relay {
        Relay { relay, wanted, joined: FrameBytes::Lying(&[]), offset: 0 }
    }

    /// The most bytes of a message that is taken whole.
    #[inline]
    pub fn limit(&self) -> usize {
        self.relay.limit()
    }

    /// Which messages are wanted whole.
    #[inline]
    pub fn wanted(&self) -> &Wanted {
        &self.wanted
    }

    /// Changes which messages are wanted whole, also one whose front is held already: it goes out in parts where
    /// it isn't wanted any more.
    #[inline]
    pub fn want(&mut self, wanted: Wanted) {
        self.wanted = wanted;
    }

    /// Whether a message without a tag comes next, or goes on.
    #[inline]
    pub fn expects_first(&self) -> bool {
        self.relay.expects() == Expects::First
    }

    /// What is held: the front of a message that is not whole yet.
    #[inline]
    pub fn held(&self) -> &[u8] {
        self.relay.held()
    }

    /// How many bytes are still to come of a message that is passed on in parts.
    #[inline]
    pub fn left(&self) -> usize {
        self.relay.left()
    }

    /// Takes the front of a piece off it, and gives what comes of that: a whole message, a part of one,
    /// or nothing yet, and then the piece is empty.
    ///
    /// Once tag and length are there, a message is refused with [`BadLength`](Refusal::BadLength) where
    /// its length is below 4, or 8 of one without a tag, and with
    /// [`FrameTooLong`](Refusal::FrameTooLong) where it is wanted whole and is longer than the limit.
    /// Where bytes are to be held, there may be no memory. Relay and piece are as they were then.
    ///
    /// ```
    /// use pgmsg::relay::{Event, Relay, Wanted};
    ///
    /// let mut relay = Relay::of_client(10_000, Wanted::tags(b"Q"));
    /// let mut piece = &b"\0\0\0\x09\0\x03\0\0\0S\0\0\0\x04Q\0\0\0\x06"[..];
    /// let mut found = Vec::new();
    /// while let Some(event) = relay.next(&mut piece)? {
    ///     found.push(match event {
    ///         Event::Frame(frame) => (frame.tag, frame.bytes.len()),
    ///         Event::Part { bytes, .. } => (None, bytes.len()),
    ///         other => panic!("{other:?}"),
    ///     });
    /// }
    /// assert_eq!(found, [(None, 9), (None, 5)]);
    /// assert_eq!((piece, relay.held()), (&b""[..], &b"Q\0\0\0\x06"[..]));
    /// # Ok::<(), pgmsg::Fault>(())
    /// ```
    #[inline]
    pub fn next<'a, 'p: 'a>(
        &'a mut self,
        piece: &mut &'p [u8],
    ) -> Result<Option<Event<'a>>, Fault> {
        self.joined = FrameBytes::Lying(&[]);
        while !piece.is_empty() {
            let Step { event, rest } = self.relay.next(&self.wanted, piece)?;
            *piece = rest;
            let offset = self.offset;
            match event {
                core_relay::Event::Frame { tag, bytes } => {
                    return Ok(Some(Event::Frame(Frame { tag, bytes: self.give(bytes), offset })))
                }
                core_relay::Event::Part { bytes, left } => {
                    return Ok(Some(Event::Part { bytes: self.give(bytes), left }))
                }
                core_relay::Event::Held => {}
            }
        }
        Ok(None)
    }

    /// Passes a piece of a stream on: adds to `out` what goes out, which are the messages that came, or
    /// what `answer` puts in their places, and the parts of those that are not wanted whole.
    ///
    /// Where each message is kept, what went out and what is [`held`](Relay::held) is what came.
    ///
    /// # Errors
    ///
    /// Those of [`next`](Relay::next), of [`Answer::place`] and of `answer`. After one the connection is
    /// at its end, since what comes next can't be known: what was added to `out` may still go out.
    ///
    /// ```
    /// use pgmsg::relay::{Answer, Relay, Wanted};
    ///
    /// // A client's stream without its Flush messages.
    /// let mut relay = Relay::of_client(10_000, Wanted::tags(b"H"));
    /// let mut out = Vec::new();
    /// let stream = b"\0\0\0\x09\0\x03\0\0\0H\0\0\0\x04S\0\0\0\x04";
    /// relay.pass(stream, &mut out, |frame| match frame.tag {
    ///     Some(b'H') => Ok(Answer::Omit),
    ///     _ => Ok(Answer::Keep),
    /// })?;
    /// assert_eq!(out, b"\0\0\0\x09\0\x03\0\0\0S\0\0\0\x04");
    /// # Ok::<(), pgmsg::Fault>(())
    /// ```
    pub fn pass(
        &mut self,
        piece: &[u8],
        out: &mut Vec<u8>,
        mut answer: impl FnMut(Frame<'_>) -> Result<Answer, Fault>,
    ) -> Result<(), Fault> {
        let mut rest = piece;
        while let Some(event) = self.next(&mut rest)? {
            match event {
                Event::Frame(frame) => {
                    for part in answer(frame)?.place(&frame)? {
                        add(out, part)?;
                    }
                }
                Event::Part { bytes, .. } => add(out, bytes)?,
            }
        }
        Ok(())
    }

    /// Keeps bytes that came in several pieces as long as they are borrowed.
    #[inline]
    fn give<'a, 'p: 'a>(&'a mut self, bytes: FrameBytes<'p>) -> &'a [u8] {
        let bytes = match bytes {
            FrameBytes::Lying(bytes) => bytes,
            FrameBytes::Joined(bytes) => {
                self.joined = FrameBytes::Joined(bytes);
                self.joined.as_slice()
            }
        };
        self.offset += bytes.len() as u64;
        bytes
    }
}

/// Shows how many bytes are held, and not the bytes, which may have a password.
impl fmt::Debug for Relay {
    fn fmt(&self, f: &mut fmt::Formatter<'_>) -> fmt::Result {
        f.debug_struct("Relay")
            .field("limit", &self.limit())
            .field("wanted", &self.wanted)
            .field("expects_first", &self.expects_first())
            .field("held", &self.held().len())
            .field("left", &self.left())
            .finish()
    }
}

/// Adds bytes to others, or leaves these as they were.
fn add(to: &mut Vec<u8>, bytes: &[u8]) -> Result<(), Refusal> {
    to.try_reserve(bytes.len()).map_err(|_| Refusal::OutOfMemory)?;
    to.extend_from_slice(bytes);
    Ok(())
}
