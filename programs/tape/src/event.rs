//! What a recording tells, message by message.

use recording::Side;
use std::borrow::Cow;

/// A message, a part of one that lies in several records, or a record that has none.
#[derive(Clone, Debug, PartialEq, Eq)]
pub struct Event<'a> {
    pub connection: u32,
    /// In microseconds since the recording began.
    pub time: u64,
    /// Whether a record begins with it. The others go on with the record of the event before.
    pub begins: bool,
    pub kind: EventKind<'a>,
}

/// What an event is.
#[derive(Clone, Debug, PartialEq, Eq)]
pub enum EventKind<'a> {
    /// A connection is opened, from this address.
    Opened(Cow<'a, [u8]>),
    /// It is closed, by this side first.
    Closed(Side),
    /// What follows is encrypted, and isn't recorded.
    Encrypted,
    /// The body of a message is left out.
    LeftOut { side: Side, tag: u8, length: u32 },
    /// A whole message, of which so many bytes are in the record at hand.
    Message { side: Side, message: RawMessage<'a>, here: usize },
    /// The next bytes of the last message of this side are in this record: all that are left, or so many.
    Continued { side: Side, here: Option<usize> },
    /// Bytes that aren't taken for a message.
    Bytes { side: Side, bytes: Cow<'a, [u8]> },
}

/// A message by its bytes, tag and length among them.
#[derive(Clone, Debug, PartialEq, Eq)]
pub struct RawMessage<'a> {
    /// Its tag, or none of a client's first message.
    pub tag: Option<u8>,
    pub bytes: Cow<'a, [u8]>,
}

impl RawMessage<'_> {
    /// The bytes after tag and length.
    pub fn body(&self) -> &[u8] {
        let head = 4 + usize::from(self.tag.is_some());
        self.bytes.get(head..).unwrap_or_default()
    }

    fn into_owned(self) -> RawMessage<'static> {
        RawMessage { tag: self.tag, bytes: Cow::Owned(self.bytes.into_owned()) }
    }
}

impl Event<'_> {
    pub fn into_owned(self) -> Event<'static> {
        let kind = match self.kind {
            EventKind::Opened(address) => EventKind::Opened(Cow::Owned(address.into_owned())),
            EventKind::Closed(side) => EventKind::Closed(side),
            EventKind::Encrypted => EventKind::Encrypted,
            EventKind::LeftOut { side, tag, length } => EventKind::LeftOut { side, tag, length },
            EventKind::Message { side, message, here } => {
                EventKind::Message { side, message: message.into_owned(), here }
            }
            EventKind::Continued { side, here } => EventKind::Continued { side, here },
            EventKind::Bytes { side, bytes } => {
                EventKind::Bytes { side, bytes: Cow::Owned(bytes.into_owned()) }
            }
        };
        Event { connection: self.connection, time: self.time, begins: self.begins, kind }
    }

    /// How many bytes of the recording it holds.
    pub fn len(&self) -> usize {
        match &self.kind {
            EventKind::Opened(bytes) | EventKind::Bytes { bytes, .. } => bytes.len(),
            EventKind::Message { message, .. } => message.bytes.len(),
            _ => 0,
        }
    }
}
