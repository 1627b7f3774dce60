//! The original as one side of the benchmark.

mod decode;
mod encode;

use harness::script::Message;
use harness::{Consumer, Layer};

struct Original;

harness::export!(Original);

impl Layer for Original {
    type Prepared<'a> = encode::Prepared<'a>;

    type Buffer = Vec<u8>;

    fn clear(buf: &mut Vec<u8>) {
        buf.clear();
    }

    fn prepare(message: Message<'_>) -> encode::Prepared<'_> {
        encode::prepare(message)
    }

    #[inline(always)]
    fn encode(message: &encode::Prepared<'_>, buf: &mut Vec<u8>) -> Option<()> {
        encode::encode(message, buf)
    }

    #[inline(always)]
    fn encode_parsed(message: Message<'_>, buf: &mut Vec<u8>) -> Option<()> {
        encode::encode(&encode::prepare(message), buf)
    }

    fn decode_prepared<C: Consumer>(stream: &[u8], times: usize, consumer: &mut C) -> Option<()> {
        decode::prepared(stream, times, consumer)
    }

    fn decode_pieces<C: Consumer>(
        stream: &[u8],
        piece: usize,
        times: usize,
        consumer: &mut C,
    ) -> Option<()> {
        decode::pieces(stream, piece, times, consumer)
    }
}
