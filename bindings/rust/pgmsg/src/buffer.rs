//! What messages are appended to.

use crate::error::Refusal;
use alloc::vec::Vec;
use core::mem;
use pgmsg_core::pg_base::io::part::Part;
use pgmsg_core::pg_base::io::{checked_len, Encodable, Sink, Tagged, HEADER};
use pgmsg_core::pg_base::ProtocolFault;
use pgmsg_core::pg_send::message::{BodyOf, FrontendMessage};
use pgmsg_core::pg_server::backend::OutboundMessage;

/// The least room that is added to a vector at once, so that small messages need few allocations.
const LEAST_GROWTH: usize = 1 << 10;

/// So few bytes are quickly filled with zeros.
#[cfg(feature = "bytes")]
const FEW: usize = 1 << 9;

/// What messages are appended to: a `Vec<u8>`, with the feature `bytes` a `BytesMut`, or a type of yours.
///
/// A message asks for the room of all its bytes once, and then appends them piece by piece.
///
/// ```
/// use pgmsg::{frontend::Message, Buffer, Refusal};
///
/// /// A buffer that never has more than 16 bytes.
/// #[derive(Default)]
/// struct Small(Vec<u8>);
///
/// impl Buffer for Small {
///     fn bytes(&self) -> &[u8] {
///         &self.0
///     }
///
///     fn truncate(&mut self, length: usize) {
///         self.0.truncate(length);
///     }
///
///     fn try_reserve(&mut self, additional: usize) -> Result<(), Refusal> {
///         match self.0.len() + additional {
///             ..=16 => Ok(()),
///             _ => Err(Refusal::OutOfMemory),
///         }
///     }
///
///     fn extend_from_slice(&mut self, bytes: &[u8]) {
///         self.0.extend_from_slice(bytes);
///     }
/// }
///
/// let mut out = Small::default();
/// assert_eq!(Message::Query("SELECT 1".into()).write(&mut out), Ok(()));
/// assert_eq!(Message::Sync.write(&mut out), Err(Refusal::OutOfMemory));
/// assert_eq!(out.bytes(), b"Q\0\0\0\x0DSELECT 1\0");
/// ```
pub trait Buffer {
    /// The bytes.
    fn bytes(&self) -> &[u8];

    /// Removes all bytes after the first `length`, or none where there are no more.
    fn truncate(&mut self, length: usize);

    /// Makes room for so many bytes more, or refuses, with [`OutOfMemory`](Refusal::OutOfMemory) where there is no
    /// memory, and leaves the bytes as they were.
    fn try_reserve(&mut self, additional: usize) -> Result<(), Refusal>;

    /// Appends bytes, for which room was made.
    fn extend_from_slice(&mut self, bytes: &[u8]);

    /// Appends so many bytes, to be written over; or none, where it is as quick to append a message piece by piece.
    #[doc(hidden)]
    #[inline(always)]
    fn extend_by(&mut self, _length: usize) -> Option<&mut [u8]> {
        None
    }
}

impl Buffer for Vec<u8> {
    #[inline]
    fn bytes(&self) -> &[u8] {
        self
    }

    #[inline]
    fn truncate(&mut self, length: usize) {
        Vec::truncate(self, length);
    }

    #[inline]
    fn try_reserve(&mut self, additional: usize) -> Result<(), Refusal> {
        if self.capacity() - self.len() >= additional {
            return Ok(());
        }
        Vec::try_reserve(self, additional.max(LEAST_GROWTH)).map_err(|_| Refusal::OutOfMemory)
    }

    #[inline(always)]
    fn extend_from_slice(&mut self, bytes: &[u8]) {
        Vec::extend_from_slice(self, bytes);
    }
}

/// Where there is no memory, the program ends, as it does in each call of that crate.
#[cfg(feature = "bytes")]
impl Buffer for bytes::BytesMut {
    #[inline]
    fn bytes(&self) -> &[u8] {
        self
    }

    #[inline]
    fn truncate(&mut self, length: usize) {
        bytes::BytesMut::truncate(self, length);
    }

    #[inline]
    fn try_reserve(&mut self, additional: usize) -> Result<(), Refusal> {
        self.reserve(additional);
        Ok(())
    }

    #[inline(always)]
    fn extend_from_slice(&mut self, bytes: &[u8]) {
        bytes::BytesMut::extend_from_slice(self, bytes);
    }

    // It tests at each piece whether there is room.
    #[inline(always)]
    fn extend_by(&mut self, length: usize) -> Option<&mut [u8]> {
        if length > FEW {
            return None;
        }
        let start = self.len();
        self.resize(start + length, 0);
        self.get_mut(start..)
    }
}

/// Where the core writes to, a piece at a time, which this function takes.
struct Out<F>(F);

impl<F: FnMut(&[u8])> Sink for Out<F> {
    #[inline(always)]
    fn put_u8(&mut self, byte: u8) {
        self.put_slice(&[byte]);
    }

    #[inline(always)]
    fn put_slice(&mut self, bytes: &[u8]) {
        self.0(bytes);
    }

    #[inline(always)]
    fn put_number(&mut self, bytes: &[u8]) {
        self.put_slice(bytes);
    }

    #[inline(always)]
    fn put_u16(&mut self, number: u16) {
        self.put_slice(&number.to_be_bytes());
    }

    #[inline(always)]
    fn put_u32(&mut self, number: u32) {
        self.put_slice(&number.to_be_bytes());
    }
}

/// Appends a text of so many bytes.
#[inline]
pub(crate) fn put_text<T: Encodable, B: Buffer>(
    text: &T,
    length: usize,
    out: &mut B,
) -> Result<(), Refusal> {
    if let Some(mut room) = out.extend_by(length) {
        text.put(&mut Out(|bytes: &[u8]| {
            let (place, rest) = mem::take(&mut room).split_at_mut(bytes.len());
            place.copy_from_slice(bytes);
            room = rest;
        }));
        return Ok(());
    }
    out.try_reserve(length)?;
    text.put(&mut Out(|bytes: &[u8]| out.extend_from_slice(bytes)));
    Ok(())
}

/// Appends a message of these parts, or refuses it for the first limit that they break, and then for what its reader
/// would not get back of it.
#[inline]
pub(crate) fn put_sound<P: Part, B: Buffer>(
    tag: u8,
    parts: P,
    sound: Result<(), ProtocolFault>,
    out: &mut B,
) -> Result<(), Refusal> {
    let len = checked_len(&parts)?;
    sound?;
    put_text(&Tagged { tag, parts: &parts, len }, HEADER + len, out)
}

/// Appends a message of the core's, as a client writes it.
#[inline]
pub(crate) fn put_message<M: FrontendMessage, B: Buffer>(
    message: &M,
    out: &mut B,
) -> Result<(), Refusal> {
    put_sound(message.tag(), BodyOf(message), message.check_round_trip(), out)
}

/// Appends a message of the core's, as a server writes it.
#[inline]
pub(crate) fn put_answer<M: OutboundMessage, B: Buffer>(
    message: &M,
    out: &mut B,
) -> Result<(), Refusal> {
    put_sound(message.tag(), message.parts(), Ok(()), out)
}
