//! `postgres-protocol`, the message layer of rust-postgres, as one side of the benchmark.

mod decode;
mod encode;
mod name;

use bytes::BytesMut;
use harness::script::Message;
use harness::{Consumer, Layer};

struct Peer;

harness::export!(Peer);

impl Layer for Peer {
    type Prepared<'a> = encode::Prepared<'a>;

    type Buffer = BytesMut;

    fn clear(buf: &mut BytesMut) {
        buf.clear();
    }

    fn prepare(message: Message<'_>) -> encode::Prepared<'_> {
        encode::prepare(message)
    }

    #[inline(always)]
    fn encode(message: &encode::Prepared<'_>, buf: &mut BytesMut) -> Option<()> {
        encode::encode(message, buf)
    }

    #[inline(always)]
    fn encode_parsed(message: Message<'_>, buf: &mut BytesMut) -> Option<()> {
        encode::encode_parsed(message, buf)
    }

    // It decodes only what it cut off a stream itself.
    fn decode_prepared<C: Consumer>(_: &[u8], _: usize, _: &mut C) -> Option<()> {
        None
    }

    fn decode_pieces<C: Consumer>(
        stream: &[u8],
        piece: usize,
        times: usize,
        consumer: &mut C,
    ) -> Option<()> {
        decode::pieces(stream, piece, times, consumer)
    }
}
