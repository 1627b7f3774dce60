//! The messages of a stream, one after the other.

use crate::error::{Fault, Refusal};
use crate::frame::{Frame, Next};
use pgmsg_core::pg_base::io::HEADER;
use pgmsg_core::pg_frames::frontend::{next_frontend_frame, Expects, MAX_FIRST_LENGTH};
use pgmsg_core::pg_frames::{first_length, next_raw_frame, FrameHead};
use pgmsg_core::pg_server::frontend::FrontendFault;

/// The bytes of the length of a message without a tag.
const LENGTH: usize = 4;

/// Cuts one side's stream into its messages, without copying them: for each its tag, its bytes and its
/// offset in the stream.
///
/// It holds no bytes: [`next`](Decoder::next) takes those that follow the last message.
///
/// ```
/// use pgmsg::{Decoder, Next};
///
/// let stream = b"1\0\0\0\x04Z\0\0\0\x05IC\0\0";
/// let (mut decoder, mut rest) = (Decoder::of_server(), &stream[..]);
/// let mut found = Vec::new();
/// while let Next::Frame(frame) = decoder.next(rest)? {
///     found.push((frame.tag, frame.offset, frame.body()));
///     rest = &rest[frame.bytes.len()..];
/// }
/// assert_eq!(found, [(Some(b'1'), 0, &b""[..]), (Some(b'Z'), 5, b"I")]);
/// assert_eq!(decoder.next(rest)?, Next::Incomplete { tag: Some(b'C'), needed: 5 });
/// # Ok::<(), pgmsg::Fault>(())
/// ```
#[derive(Clone, Debug)]
pub struct Decoder {
    side: Side,
    limit: usize,
    offset: u64,
}

/// Whose stream it is, and what comes next in it.
#[derive(Clone, Copy, Debug, PartialEq, Eq)]
enum Side {
    /// A server's, whose messages all have a tag.
    Server,
    /// A client's, where such a message comes next.
    Client(Expects),
}

impl Decoder {
    /// Cuts a server's stream. The single byte by which a server answers a request for encryption is no
    /// part of it.
    pub const fn of_server() -> Decoder {
        Decoder::of(Side::Server)
    }

    /// Cuts a client's stream, which begins with a message without a tag; one that asks for encryption is
    /// followed by another one.
    pub const fn of_client() -> Decoder {
        Decoder::of(Side::Client(Expects::First))
    }

    /// Cuts a client's stream from its messages with a tag on.
    pub const fn of_open_client() -> Decoder {
        Decoder::of(Side::Client(Expects::Tagged))
    }

    const fn of(side: Side) -> Decoder {
        Decoder { side, limit: usize::MAX, offset: 0 }
    }

    /// Refuses messages of more than so many bytes, tag and length among them. One without a tag is refused
    /// above [`MAX_FIRST_LENGTH`] too.
    ///
    /// ```
    /// use pgmsg::{Decoder, Refusal};
    ///
    /// let mut decoder = Decoder::of_server().with_limit(100);
    /// let fault = decoder.next(b"D\0\0\0\x64").unwrap_err();
    /// assert_eq!(fault.refusal, Refusal::FrameTooLong);
    /// # Ok::<(), pgmsg::Fault>(())
    /// ```
    pub const fn with_limit(mut self, limit: usize) -> Decoder {
        self.limit = limit;
        self
    }

    /// The offset in the stream at which the next message begins.
    #[inline]
    pub const fn offset(&self) -> u64 {
        self.offset
    }

    /// Whether a message without a tag comes next.
    #[inline]
    pub const fn expects_first(&self) -> bool {
        matches!(self.side, Side::Client(Expects::First))
    }

    /// The message at the front of the bytes that follow the last one. Where it is whole, the decoder goes
    /// on after it.
    ///
    /// A stream is refused as soon as five bytes show a length below 4 or, of a client, an unknown tag; a
    /// message without a tag, where its length is below 8. The position in the stream is lost then.
    #[inline(always)]
    pub fn next<'a>(&mut self, bytes: &'a [u8]) -> Result<Next<'a>, Fault> {
        let (length, after) = match self.side {
            Side::Server => match next_raw_frame(bytes)? {
                Some(frame) => (bytes.len() - frame.rest.len(), Some(Side::Server)),
                None => (self.needed(bytes), None),
            },
            Side::Client(expects) => self.front_of_client(expects, bytes)?,
        };
        if length > self.limit {
            return Err(Refusal::FrameTooLong.into());
        }
        let tag = bytes.first().copied().filter(|_| !self.expects_first());
        let Some(side) = after else {
            return Ok(Next::Incomplete { tag, needed: length });
        };
        let frame = Frame { tag, bytes: &bytes[..length], offset: self.offset };
        self.side = side;
        self.advance(length);
        Ok(Next::Frame(frame))
    }

    /// How many bytes the message at the front of a client's stream has, and, where it is whole, what comes next.
    fn front_of_client(
        &self,
        expects: Expects,
        bytes: &[u8],
    ) -> Result<(usize, Option<Side>), FrontendFault> {
        Ok(match next_frontend_frame(expects, MAX_FIRST_LENGTH, bytes)? {
            Some(frame) => (bytes.len() - frame.rest.len(), Some(Side::Client(frame.next))),
            None => (self.needed(bytes), None),
        })
    }

    /// How many bytes the message at the front needs at least, whose length is not refused.
    fn needed(&self, bytes: &[u8]) -> usize {
        match self.expects_first() {
            true => first_length(bytes).map_or(LENGTH, |length| length as usize),
            false => FrameHead::of(bytes).map_or(HEADER, |head| 1 + head.announced as usize),
        }
    }

    /// Goes on after a message with a tag of so many bytes, which isn't looked at whole: of one that is
    /// passed on as its bytes come, [`Next::Incomplete`] has the tag and the number of bytes.
    ///
    /// ```
    /// use pgmsg::{Decoder, Next};
    ///
    /// let mut decoder = Decoder::of_server();
    /// assert_eq!(decoder.next(b"d\0\0\x10\0da")?, Next::Incomplete { tag: Some(b'd'), needed: 4097 });
    /// decoder.advance(4097);
    /// assert_eq!(decoder.offset(), 4097);
    /// # Ok::<(), pgmsg::Fault>(())
    /// ```
    #[inline]
    pub fn advance(&mut self, length: usize) {
        self.offset += length as u64;
    }
}
