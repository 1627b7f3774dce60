//! Codecs for `tokio_util::codec::Framed`, of a client and of a server.
//!
//! What they read are [`SharedFrame`]s, which share the allocation of the stream and are read as messages
//! where that is wanted; what they write are messages, or frames that are passed on.
//!
//! ```
//! use bytes::BytesMut;
//! use pgmsg::backend;
//! use pgmsg::codec::ClientCodec;
//! use pgmsg::frontend::Message;
//! use tokio_util::codec::{Decoder, Encoder};
//!
//! let mut codec = ClientCodec::new();
//! let mut out = BytesMut::new();
//! codec.encode(Message::Query("SELECT 1".into()), &mut out)?;
//!
//! let mut stream = BytesMut::from(&b"C\0\0\0\x0dSELECT 1\0Z\0\0"[..]);
//! let frame = codec.decode(&mut stream)?.ok_or("a whole message")?;
//! let message = backend::Message::read(&frame.frame())?;
//! assert_eq!(message, backend::Message::CommandComplete("SELECT 1".into()));
//! assert!(codec.decode(&mut stream)?.is_none());
//! # Ok::<(), Box<dyn std::error::Error>>(())
//! ```

use crate::decoder::Decoder;
use crate::frame::{Frame, Next};
use crate::{backend, frontend};
use bytes::{Bytes, BytesMut};
use std::fmt;
use std::io;
use tokio_util::codec;

/// The most room that is made at once for a message that isn't whole: a peer can announce 2 GiB.
const MOST_GROWTH: usize = 1 << 20;

/// A message as its bytes, which share the allocation of the stream.
#[derive(Clone, PartialEq, Eq)]
pub struct SharedFrame {
    /// Its tag, or `None` of a client's message without one.
    pub tag: Option<u8>,
    /// All of its bytes, tag and length among them.
    pub bytes: Bytes,
    /// The offset of its first byte in the stream.
    pub offset: u64,
}

impl SharedFrame {
    /// The message for [`backend::Message::read`] or [`frontend::Message::read`]. Bytes of it become a
    /// `Bytes` of their own by [`Bytes::slice_ref`].
    #[inline]
    pub fn frame(&self) -> Frame<'_> {
        Frame { tag: self.tag, bytes: &self.bytes, offset: self.offset }
    }
}

impl fmt::Debug for SharedFrame {
    fn fmt(&self, f: &mut fmt::Formatter<'_>) -> fmt::Result {
        self.frame().fmt(f)
    }
}

impl Decoder {
    /// Takes the first message off a stream.
    fn take(&mut self, stream: &mut BytesMut) -> io::Result<Option<SharedFrame>> {
        let (tag, offset, length) = match self.next(stream)? {
            Next::Frame(frame) => (frame.tag, frame.offset, frame.bytes.len()),
            Next::Incomplete { needed, .. } => {
                let missing = needed.saturating_sub(stream.len());
                stream.reserve(missing.min(MOST_GROWTH));
                return Ok(None);
            }
        };
        let bytes = stream.split_to(length).freeze();
        Ok(Some(SharedFrame { tag, bytes, offset }))
    }
}

macro_rules! codecs {
    ($($(#[$doc:meta])* $name:ident $new:expr, $message:path;)*) => {
        $(
            $(#[$doc])*
            #[derive(Clone, Debug)]
            pub struct $name(Decoder);

            impl $name {
                /// A codec from the start of a connection on.
                pub const fn new() -> $name {
                    $name($new)
                }

                /// Refuses messages to be read of more than so many bytes, as
                /// [`Decoder::with_limit`](crate::Decoder::with_limit) does.
                pub const fn with_limit(limit: usize) -> $name {
                    $name($new.with_limit(limit))
                }
            }

            impl Default for $name {
                fn default() -> $name {
                    $name::new()
                }
            }

            impl codec::Decoder for $name {
                type Item = SharedFrame;
                type Error = io::Error;

                fn decode(&mut self, stream: &mut BytesMut) -> io::Result<Option<SharedFrame>> {
                    self.0.take(stream)
                }
            }

            impl codec::Encoder<$message> for $name {
                type Error = io::Error;

                fn encode(&mut self, message: $message, out: &mut BytesMut) -> io::Result<()> {
                    Ok(message.write(out)?)
                }
            }

            impl codec::Encoder<SharedFrame> for $name {
                type Error = io::Error;

                fn encode(&mut self, frame: SharedFrame, out: &mut BytesMut) -> io::Result<()> {
                    out.extend_from_slice(&frame.bytes);
                    Ok(())
                }
            }
        )*
    };
}

codecs! {
    /// A client's codec: it reads what a server sends, and writes what a client does.
    ClientCodec Decoder::of_server(), frontend::Message<'_>;
    /// A server's codec: it reads what a client sends, from its message without a tag on, and writes what a
    /// server does.
    ServerCodec Decoder::of_client(), backend::Message<'_>;
}
