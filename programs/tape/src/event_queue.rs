//! Items in their order, of which some wait for the rest of a message.

use crate::event::{Event, EventKind};
use crate::event_decoder::EventSink;
use recording::Side;
use std::borrow::Cow;
use std::collections::VecDeque;

/// What an entry takes beside its bytes.
const ENTRY: usize = 128;

/// The part of a message that isn't whole yet which lies in a record.
#[derive(Clone, Copy, Debug)]
pub struct MessagePart {
    pub connection: u32,
    pub time: u64,
    pub begins: bool,
    pub side: Side,
    pub len: usize,
}

impl MessagePart {
    pub fn event(self, kind: EventKind<'_>) -> Event<'_> {
        Event { connection: self.connection, time: self.time, begins: self.begins, kind }
    }

    /// Its bytes as no message.
    pub fn bytes(self, bytes: &[u8]) -> Event<'_> {
        self.event(EventKind::Bytes { side: self.side, bytes: Cow::Borrowed(bytes) })
    }
}

enum QueueEntry {
    Ready(Event<'static>),
    Waiting(MessagePart),
}

/// Entries have numbers, which go on as those at the front are taken.
#[derive(Default)]
pub struct EventQueue {
    entries: VecDeque<QueueEntry>,
    taken: u64,
    /// What the entries take.
    size: usize,
}

impl EventQueue {
    pub fn is_empty(&self) -> bool {
        self.entries.is_empty()
    }

    pub fn size(&self) -> usize {
        self.size
    }

    /// Gives an event to a sink, or holds it where others are held.
    #[inline]
    pub fn give<E>(&mut self, event: Event<'_>, sink: &mut impl EventSink<E>) -> Result<(), E> {
        if self.is_empty() {
            return sink(event);
        }
        self.size += ENTRY + event.len();
        self.entries.push_back(QueueEntry::Ready(event.into_owned()));
        Ok(())
    }

    /// Adds a part of a message, and gives its number.
    pub fn wait(&mut self, part: MessagePart) -> u64 {
        self.size += ENTRY + part.len;
        self.entries.push_back(QueueEntry::Waiting(part));
        self.taken + self.entries.len() as u64 - 1
    }

    fn entry(&mut self, number: u64) -> Option<&mut QueueEntry> {
        self.entries.get_mut(usize::try_from(number.checked_sub(self.taken)?).ok()?)
    }

    /// More bytes of a part are there.
    pub fn grow(&mut self, number: u64, count: usize) {
        self.size += count;
        if let Some(QueueEntry::Waiting(part)) = self.entry(number) {
            part.len += count;
        }
    }

    /// The part that waits under a number.
    pub fn part(&mut self, number: u64) -> Option<MessagePart> {
        match self.entry(number)? {
            QueueEntry::Waiting(part) => Some(*part),
            QueueEntry::Ready(_) => None,
        }
    }

    /// Puts an event in the place of a part.
    pub fn settle(&mut self, number: u64, part: MessagePart, event: Event<'static>) {
        self.size = self.size + event.len() - part.len;
        if let Some(entry) = self.entry(number) {
            *entry = QueueEntry::Ready(event);
        }
    }

    /// The part at the front that waits.
    pub fn front(&self) -> Option<MessagePart> {
        match self.entries.front()? {
            QueueEntry::Waiting(part) => Some(*part),
            QueueEntry::Ready(_) => None,
        }
    }

    /// Takes the event at the front, where that doesn't wait.
    pub fn take(&mut self) -> Option<Event<'static>> {
        match self.entries.pop_front()? {
            QueueEntry::Ready(event) => {
                self.taken += 1;
                self.size -= ENTRY + event.len();
                Some(event)
            }
            waiting => {
                self.entries.push_front(waiting);
                None
            }
        }
    }
}
