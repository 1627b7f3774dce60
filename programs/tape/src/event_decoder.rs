//! The messages of a recording: its records, cut where messages begin and end.
//!
//! An event comes where its message begins. One that lies in several records is waited for, up to `HELD` bytes of all that
//! follows; beyond them, and where it is longer than `LONGEST`, its bytes are events as they came.

use crate::event::{Event, EventKind, RawMessage};
use crate::event_queue::{EventQueue, MessagePart};
use crate::stream_state::{StreamMode, StreamState, LONGEST};
use pgmsg::Next;
use recording::{Record, RecordKind, Side, MESSAGE_HEAD};
use std::borrow::Cow;
use std::collections::BTreeMap;

/// How much is held while a message isn't whole.
const HELD: usize = 8 << 20;

/// Where events go.
pub trait EventSink<E>: FnMut(Event<'_>) -> Result<(), E> {}

impl<E, F: FnMut(Event<'_>) -> Result<(), E>> EventSink<E> for F {}

/// Makes events of records.
#[derive(Default)]
pub struct EventDecoder {
    streams: BTreeMap<(u32, Side), StreamState>,
    queue: EventQueue,
}

impl EventDecoder {
    /// Takes the next record, and gives what is known with it.
    pub fn take<E>(&mut self, record: &Record<'_>, sink: &mut impl EventSink<E>) -> Result<(), E> {
        let Record { connection, time, kind, content, .. } = *record;
        let event = |kind| Event { connection, time, begins: true, kind };
        match kind {
            RecordKind::Bytes(side) => self.bytes(record, side, sink)?,
            RecordKind::Opened => {
                for side in [Side::Client, Side::Server] {
                    self.streams.insert((connection, side), StreamState::new(side));
                }
                self.queue.give(event(EventKind::Opened(content.into())), sink)?;
            }
            RecordKind::Encrypted => self.queue.give(event(EventKind::Encrypted), sink)?,
            RecordKind::LeftOut(side) => {
                self.break_off(connection, side);
                if let [tag, a, b, c, d] = *content {
                    let length = u32::from_be_bytes([a, b, c, d]);
                    self.queue.give(event(EventKind::LeftOut { side, tag, length }), sink)?;
                }
            }
            RecordKind::Closed => {
                for side in [Side::Client, Side::Server] {
                    self.give_up(connection, side);
                    self.streams.remove(&(connection, side));
                }
                let side = record.closed_by().unwrap_or(Side::Server);
                self.queue.give(event(EventKind::Closed(side)), sink)?;
            }
        }
        self.drain(sink)
    }

    /// Gives what is left at the end of a recording.
    pub fn end<E>(&mut self, sink: &mut impl EventSink<E>) -> Result<(), E> {
        self.shrink(0, sink)
    }

    /// Gives the events at the front that don't wait, and holds no more than it may.
    fn drain<E>(&mut self, sink: &mut impl EventSink<E>) -> Result<(), E> {
        if self.queue.is_empty() {
            return Ok(());
        }
        while let Some(event) = self.queue.take() {
            sink(event)?;
        }
        self.shrink(HELD, sink)
    }

    /// Gives up messages that aren't whole while more than so many bytes are held.
    fn shrink<E>(&mut self, most: usize, sink: &mut impl EventSink<E>) -> Result<(), E> {
        while self.queue.size() > most {
            if let Some(part) = self.queue.front() {
                self.give_up(part.connection, part.side);
            }
            match self.queue.take() {
                Some(event) => sink(event)?,
                None => break,
            }
        }
        Ok(())
    }

    /// A message is left out, which begins none where another isn't whole.
    fn break_off(&mut self, connection: u32, side: Side) {
        self.give_up(connection, side);
        if let Some(stream) = self.streams.get_mut(&(connection, side)) {
            if !stream.held.is_empty() || stream.mode != StreamMode::Messages {
                stream.mode = StreamMode::Broken;
            }
        }
    }

    /// Gives what is held of a message as bytes; the rest of it is given as it comes.
    fn give_up(&mut self, connection: u32, side: Side) {
        if let Some(stream) = self.streams.get_mut(&(connection, side)) {
            stream.give_up(&mut self.queue);
        }
    }

    /// Cuts the bytes of a record.
    fn bytes<E>(
        &mut self,
        record: &Record<'_>,
        side: Side,
        sink: &mut impl EventSink<E>,
    ) -> Result<(), E> {
        let &Record { connection, time, content, .. } = record;
        let stream = self.streams.entry((connection, side));
        let mut cursor = RecordCursor {
            part: MessagePart { connection, time, begins: true, side, len: 0 },
            rest: content,
            waiting: None,
            stream: stream.or_insert_with(|| StreamState::new(side)),
            queue: &mut self.queue,
        };
        if content.is_empty() {
            return cursor.pass_on(0, sink);
        }
        while !cursor.rest.is_empty() {
            cursor.step(sink)?;
        }
        Ok(())
    }
}

/// What is left of a record.
struct RecordCursor<'r, 'c> {
    part: MessagePart,
    rest: &'r [u8],
    /// The entry that waits with bytes of this record.
    waiting: Option<u64>,
    stream: &'c mut StreamState,
    queue: &'c mut EventQueue,
}

impl<'r> RecordCursor<'r, '_> {
    /// Takes the next message of a record, or what there is of it.
    fn step<E>(&mut self, sink: &mut impl EventSink<E>) -> Result<(), E> {
        match self.stream.mode {
            StreamMode::Broken => self.pass_on(self.rest.len(), sink),
            StreamMode::Parts(left) => {
                let count = left.min(self.rest.len());
                self.stream.mode = StreamState::mode_with(left - count);
                self.pass_on(count, sink)
            }
            StreamMode::Messages if self.stream.held.is_empty() => self.look(sink),
            StreamMode::Messages => self.hold(sink),
        }
    }

    /// Gives the next bytes of a record as they came.
    fn pass_on<E>(&mut self, count: usize, sink: &mut impl EventSink<E>) -> Result<(), E> {
        let part = self.part;
        let bytes = self.split(count);
        self.queue.give(part.bytes(bytes), sink)
    }

    /// Looks for a message at the front of what is left of a record.
    fn look<E>(&mut self, sink: &mut impl EventSink<E>) -> Result<(), E> {
        match self.stream.decoder.next(self.rest) {
            Ok(Next::Frame(frame)) => {
                let part = self.part;
                let here = self.split(frame.bytes.len()).len();
                let message = RawMessage { tag: frame.tag, bytes: Cow::Borrowed(frame.bytes) };
                let kind = EventKind::Message { side: part.side, message, here };
                return self.queue.give(part.event(kind), sink);
            }
            Ok(Next::Incomplete { tag: Some(_), needed })
                if needed > LONGEST && self.rest.len() >= MESSAGE_HEAD =>
            {
                self.stream.pass(needed, 0);
            }
            Ok(Next::Incomplete { .. }) => {
                self.stream.held.extend_from_slice(self.rest);
                self.waiting = None;
                self.wait(self.rest.len());
            }
            Err(_) => self.stream.mode = StreamMode::Broken,
        }
        Ok(())
    }

    /// Adds bytes of a record to the front of a message that is held.
    fn hold<E>(&mut self, sink: &mut impl EventSink<E>) -> Result<(), E> {
        let held = &mut self.stream.held;
        let needed = match self.stream.decoder.next(held) {
            Ok(Next::Incomplete { needed, .. }) => needed,
            _ => 0,
        };
        let count = needed.saturating_sub(held.len()).clamp(1, self.rest.len());
        held.extend_from_slice(&self.rest[..count]);
        if self.stream.parts.is_empty() {
            self.pass_on(count, sink)?;
        } else {
            self.wait(count);
        }
        self.stream.judge(self.part.side, self.queue);
        Ok(())
    }

    /// Takes bytes off the front.
    fn split(&mut self, count: usize) -> &'r [u8] {
        let (bytes, rest) = self.rest.split_at(count);
        self.rest = rest;
        self.part.begins = false;
        bytes
    }

    /// Has the next bytes wait for the rest of their message.
    fn wait(&mut self, count: usize) {
        match self.waiting {
            Some(number) => self.queue.grow(number, count),
            None => {
                let number = self.queue.wait(MessagePart { len: count, ..self.part });
                self.stream.parts.push(number);
                self.waiting = Some(number);
            }
        }
        self.split(count);
    }
}
