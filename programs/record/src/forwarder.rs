//! One way of a connection.

use crate::framer::{Framer, Scan};
use bytes::{Buf, BytesMut};
use net::Stream;
use pgmsg::backend::Authentication;
use pgmsg::Fault;
use recording::{RecordKind, Side, MESSAGE_HEAD};
use std::future::Future;
use std::io;
use std::pin::Pin;
use std::task::{ready, Context, Poll};
use tokio::io::{AsyncReadExt, AsyncWrite};

/// The room for bytes at first, which is kept where nothing comes, and at most.
const ROOM: usize = 2 << 10;
const ROOM_MOST: usize = 64 << 10;

/// What passes from one side to the other.
pub struct Forwarder {
    side: Side,
    /// `None` where bytes are encrypted, and pass unread.
    framer: Option<Framer>,
    /// Mechanisms with channel binding are taken out of the server's offer.
    drops_binding: bool,
    /// What came and hasn't passed, and how many of these bytes may, since they are recorded.
    held: BytesMut,
    passing: usize,
    /// The room for what comes next.
    room: usize,
    /// What is found in the bytes that came last, if they were looked at.
    found: Scan,
    is_new: bool,
    /// The side has ended.
    pub has_ended: bool,
    /// The other side takes nothing any more.
    pub is_refused: bool,
    is_closed: bool,
}

impl Forwarder {
    /// The direction from a side on, after some bytes that came before.
    pub fn new(
        side: Side,
        framer: Option<Framer>,
        drops_binding: bool,
        before: &[u8],
    ) -> Forwarder {
        Forwarder {
            side,
            framer,
            drops_binding,
            held: BytesMut::from(before),
            passing: 0,
            room: ROOM,
            found: Scan::default(),
            is_new: true,
            has_ended: false,
            is_refused: false,
            is_closed: false,
        }
    }

    /// Whether nothing passes any more.
    pub fn is_over(&self) -> bool {
        self.is_refused || self.is_closed
    }

    /// Looks at what is new, which may pass once it is recorded.
    pub fn look(&mut self) {
        if !std::mem::take(&mut self.is_new) {
            self.found.clear();
        } else if let Some(framer) = &mut self.framer {
            self.passing = framer.scan(&self.held, self.has_ended, &mut self.found);
        } else {
            self.passing = self.held.len();
        }
    }

    /// The records of what is new.
    pub fn records(&self) -> impl Iterator<Item = (RecordKind, &[u8])> {
        self.found.spans.iter().map(|piece| (piece.kind, &self.held[piece.range.clone()]))
    }

    /// Takes mechanisms with channel binding out of what may pass, where that is asked for.
    pub fn drop_binding(&mut self) {
        // The last list first, so that the places of the others stay.
        for range in self.found.mechanisms.iter().rev().filter(|_| self.drops_binding) {
            let offer = without_binding(&self.held[range.clone()]).unwrap_or_default();
            if !offer.is_empty() {
                self.passing = self.passing - range.len() + offer.len();
                let rest = self.held.split_off(range.end);
                self.held.truncate(range.start);
                self.held.extend_from_slice(&offer);
                self.held.unsplit(rest);
            }
        }
    }

    /// Passes on what may pass, and the end after it; then reads. Ready where something is new, or nothing passes any more.
    pub fn poll(&mut self, cx: &mut Context<'_>, from: &mut Stream, to: &mut Stream) -> Poll<()> {
        if self.is_over() {
            return Poll::Pending;
        }
        self.is_refused = ready!(self.poll_write(cx, to)).is_err();
        if self.is_refused {
            return Poll::Ready(());
        }
        if self.has_ended {
            let _ = ready!(Pin::new(to).poll_shutdown(cx));
            self.is_closed = true;
            return Poll::Ready(());
        }
        self.has_ended = ready!(self.poll_read(cx, from)) == 0;
        self.is_new = true;
        Poll::Ready(())
    }

    fn poll_write(&mut self, cx: &mut Context<'_>, to: &mut Stream) -> Poll<io::Result<()>> {
        while self.passing > 0 {
            let count = ready!(Pin::new(&mut *to).poll_write(cx, &self.held[..self.passing]))?;
            if count == 0 {
                return Poll::Ready(Err(io::ErrorKind::WriteZero.into()));
            }
            self.held.advance(count);
            self.passing -= count;
        }
        Pin::new(to).poll_flush(cx)
    }

    /// Reads once, and gives how many bytes came: none at the end, or where the connection broke. The room grows while it is
    /// filled, and isn't held while nothing comes.
    fn poll_read(&mut self, cx: &mut Context<'_>, from: &mut Stream) -> Poll<usize> {
        let before = self.held.len();
        self.held.reserve(self.room.saturating_sub(before).max(1));
        let polled = {
            let read = from.read_buf(&mut self.held);
            tokio::pin!(read);
            read.poll(cx)
        };
        if polled.is_pending() && before == 0 && self.held.capacity() > ROOM {
            self.held = BytesMut::new();
        }
        let count = ready!(polled).unwrap_or(0);
        self.room = match before + count {
            len if len >= self.room => (4 * self.room).min(ROOM_MOST),
            len if len < ROOM / 2 => ROOM,
            _ => self.room,
        };
        Poll::Ready(count)
    }
}

/// The side that ended first of those that have, where one has.
pub fn first_end(up: &Forwarder, down: &Forwarder) -> Option<Side> {
    if up.has_ended || down.is_refused {
        Some(up.side)
    } else if down.has_ended || up.is_refused {
        Some(down.side)
    } else {
        None
    }
}

/// A server's offer of mechanisms without those with channel binding; nothing where it has none, or can't be read.
fn without_binding(message: &[u8]) -> Result<Vec<u8>, Fault> {
    let mut offer = Vec::new();
    if let Authentication::Sasl(mechanisms) = Authentication::read(&message[MESSAGE_HEAD..])? {
        let mut left = mechanisms.into_vec();
        let offered = left.len();
        left.retain(|name| !name.ends_with(b"-PLUS"));
        if left.len() < offered {
            Authentication::Sasl(left.into()).write(&mut offer)?;
        }
    }
    Ok(offer)
}

#[cfg(test)]
mod tests {
    use super::*;

    /// What passes of an offer of these mechanisms, each with its NUL, and what follows the last one.
    fn passes(mechanisms: &[u8]) -> BytesMut {
        let mut stream = vec![b'R', 0, 0, 0, 8 + mechanisms.len() as u8, 0, 0, 0, 10];
        stream.extend_from_slice(mechanisms);
        let framer = Framer::new(Side::Server, true, true);
        let mut direction = Forwarder::new(Side::Server, Some(framer), true, &stream);
        direction.look();
        direction.drop_binding();
        assert_eq!(direction.passing, direction.held.len());
        direction.held
    }

    #[test]
    fn an_offer_loses_channel_binding_alone() {
        let without = b"R\0\0\0\x17\0\0\0\x0aSCRAM-SHA-256\0\0";
        assert_eq!(passes(b"SCRAM-SHA-256-PLUS\0SCRAM-SHA-256\0\0"), &without[..]);
        assert_eq!(passes(b"SCRAM-SHA-256-PLUS\0SCRAM-SHA-256\0"), &without[..]);
        assert_eq!(passes(b"SCRAM-SHA-256\0\0"), &without[..]);
        // A list that doesn't end, of which nothing is taken.
        assert_eq!(passes(b"SCRAM-SHA-256\0"), &b"R\0\0\0\x16\0\0\0\x0aSCRAM-SHA-256\0"[..]);
        assert_eq!(passes(b"A"), &b"R\0\0\0\x09\0\0\0\x0aA"[..]);
        assert_eq!(passes(b""), &b"R\0\0\0\x08\0\0\0\x0a"[..]);
    }
}
