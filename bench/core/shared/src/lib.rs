//! What the benchmark programs in Rust share: the script, the consumers of decoded values, and the
//! functions that the timer calls (`timer/layer.h`).

pub mod consumer;
mod export;
pub mod script;

pub use consumer::Consumer;
pub use export::{bytes_at, give};

use consumer::{Checksum, Seen};
use script::Message;
use std::ops::Deref;

/// A message layer's side of the benchmark.
pub trait Layer {
    /// A message as the layer keeps it, ready to be encoded.
    type Prepared<'a>;

    /// What the layer encodes into.
    type Buffer: Default + Deref<Target = [u8]>;

    fn clear(buf: &mut Self::Buffer);

    fn prepare(message: Message<'_>) -> Self::Prepared<'_>;

    /// Encodes a prepared message. `None` where it is refused.
    fn encode(message: &Self::Prepared<'_>, buf: &mut Self::Buffer) -> Option<()>;

    /// Encodes a message that was just parsed.
    fn encode_parsed(message: Message<'_>, buf: &mut Self::Buffer) -> Option<()>;

    /// Cuts the stream into messages once; each pass decodes each. `None` where the layer doesn't
    /// decode a message that was cut off before.
    fn decode_prepared<C: Consumer>(stream: &[u8], times: usize, consumer: &mut C) -> Option<()>;

    /// Each pass takes the stream in pieces, and decodes what is complete after each.
    fn decode_pieces<C: Consumer>(
        stream: &[u8],
        piece: usize,
        times: usize,
        consumer: &mut C,
    ) -> Option<()>;
}

/// Parses the script once, and encodes its messages one by one.
pub fn encode_prepared<L: Layer>(script: &[u8], times: usize) -> Option<L::Buffer> {
    let messages: Vec<_> = script::Script(script).map(L::prepare).collect();
    let mut buf = L::Buffer::default();
    for _ in 0..times {
        L::clear(&mut buf);
        for message in &messages {
            L::encode(message, &mut buf)?;
        }
    }
    Some(buf)
}

/// Parses the script in each pass, and encodes each message as it is parsed.
pub fn encode_script<L: Layer>(script: &[u8], times: usize) -> Option<L::Buffer> {
    let mut buf = L::Buffer::default();
    for _ in 0..times {
        L::clear(&mut buf);
        for message in script::Script(script) {
            L::encode_parsed(message, &mut buf)?;
        }
    }
    Some(buf)
}

/// Decodes the messages of a stream that was cut into them before. Gives what the consumer has, the
/// checksum where `full` says so, or 0 where the bytes are refused.
pub fn decode_prepared<L: Layer>(stream: &[u8], times: usize, full: bool) -> u64 {
    if full {
        value_of(|consumer: &mut Checksum| L::decode_prepared(stream, times, consumer))
    } else {
        value_of(|consumer: &mut Seen| L::decode_prepared(stream, times, consumer))
    }
}

/// Decodes a stream that comes in pieces. Gives what `decode_prepared` gives.
pub fn decode_pieces<L: Layer>(stream: &[u8], piece: usize, times: usize, full: bool) -> u64 {
    if full {
        value_of(|consumer: &mut Checksum| L::decode_pieces(stream, piece, times, consumer))
    } else {
        value_of(|consumer: &mut Seen| L::decode_pieces(stream, piece, times, consumer))
    }
}

fn value_of<C: Consumer>(work: impl FnOnce(&mut C) -> Option<()>) -> u64 {
    let mut consumer = C::default();
    work(&mut consumer).map_or(0, |()| consumer.value())
}
