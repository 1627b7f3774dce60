//! The message at the front of a stream, of either side.

use core::fmt;

/// The bytes of a length.
const LENGTH: usize = 4;

/// A message as its bytes, which it borrows of a stream.
#[derive(Clone, Copy, PartialEq, Eq)]
#[non_exhaustive]
pub struct Frame<'a> {
    /// Its tag, or `None` of a client's message without one.
    pub tag: Option<u8>,
    /// All of its bytes, tag and length among them. The next message begins where they end.
    pub bytes: &'a [u8],
    /// The offset of its first byte in the stream.
    pub offset: u64,
}

impl<'a> Frame<'a> {
    /// The bytes after the length.
    #[inline]
    pub fn body(&self) -> &'a [u8] {
        let head = LENGTH + usize::from(self.tag.is_some());
        self.bytes.get(head..).unwrap_or_default()
    }
}

/// Shows the number of its bytes alone, since they may be secret.
impl fmt::Debug for Frame<'_> {
    fn fmt(&self, f: &mut fmt::Formatter<'_>) -> fmt::Result {
        f.debug_struct("Frame")
            .field("tag", &self.tag.map(char::from))
            .field("length", &self.bytes.len())
            .field("offset", &self.offset)
            .finish_non_exhaustive()
    }
}

/// What is at the front of a stream.
#[derive(Clone, Copy, Debug, PartialEq, Eq)]
pub enum Next<'a> {
    /// A whole message.
    Frame(Frame<'a>),
    /// The beginning of a message, or nothing.
    Incomplete {
        /// Its tag, where that is there.
        tag: Option<u8>,
        /// How many bytes the stream needs at least, those that are there included: of a message whose
        /// length is there, all of its bytes. It can be up to 2 GiB.
        needed: usize,
    },
}

impl<'a> Next<'a> {
    /// The message, where it is whole.
    #[inline]
    pub fn frame(self) -> Option<Frame<'a>> {
        match self {
            Next::Frame(frame) => Some(frame),
            Next::Incomplete { .. } => None,
        }
    }
}
