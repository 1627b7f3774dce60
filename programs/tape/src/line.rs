//! The lines of a recording as JSON: what each says, and how one is written.

use crate::client::ClientMessage;
use crate::conversions::untyped;
use crate::event::{Event, EventKind, RawMessage};
use crate::fields::{NoFields, OtherFields, Tag};
use crate::json::put_json;
use crate::json_bytes::JsonBytes;
use crate::layout::MessageLayout;
use crate::server::ServerMessage;
use recording::Side;
use serde::{Deserialize, Serialize};
use std::borrow::Cow;

/// The version of the format.
pub const VERSION: u32 = 1;

/// A side by its name.
#[derive(Clone, Copy, Debug, PartialEq, Eq, Serialize, Deserialize)]
#[serde(remote = "Side", rename_all = "lowercase")]
pub enum SideName {
    Client,
    Server,
}

/// The first line.
#[derive(Debug, PartialEq, Serialize, Deserialize)]
#[serde(deny_unknown_fields)]
pub struct HeaderFields {
    pub version: u32,
    /// In microseconds since 1970.
    pub begun: u64,
}

#[derive(Debug, PartialEq, Serialize, Deserialize)]
#[serde(deny_unknown_fields, bound(deserialize = "'de: 'a"))]
pub struct OpenedFields<'a> {
    pub address: JsonBytes<'a>,
}

#[derive(Debug, PartialEq, Serialize, Deserialize)]
#[serde(deny_unknown_fields)]
pub struct ClosedFields {
    #[serde(with = "SideName")]
    pub by: Side,
}

#[derive(Debug, PartialEq, Serialize, Deserialize)]
#[serde(deny_unknown_fields)]
pub struct LeftOutFields {
    pub tag: Tag,
    pub length: u32,
}

/// Bytes that aren't taken for a message, or what follows the last whole record of a file.
#[derive(Debug, PartialEq, Serialize, Deserialize)]
#[serde(deny_unknown_fields, bound(deserialize = "'de: 'a"))]
pub struct BytesFields<'a> {
    pub data: JsonBytes<'a>,
}

/// What a line says beside its position.
#[derive(Debug, PartialEq, Serialize)]
#[serde(untagged)]
pub enum LineContent<'a> {
    Recording(HeaderFields),
    Opened(OpenedFields<'a>),
    Closed(ClosedFields),
    Encrypted(NoFields),
    LeftOut(LeftOutFields),
    Client(ClientMessage<'a>),
    Server(ServerMessage<'a>),
    Continued(NoFields),
    Bytes(BytesFields<'a>),
    Cut(BytesFields<'a>),
}

impl LineContent<'_> {
    /// The name that the line has for it.
    pub fn kind(&self) -> &'static str {
        match self {
            LineContent::Recording(_) => "Recording",
            LineContent::Opened(_) => "Opened",
            LineContent::Closed(_) => "Closed",
            LineContent::Encrypted(_) => "Encrypted",
            LineContent::LeftOut(_) => "LeftOut",
            LineContent::Client(message) => message.kind(),
            LineContent::Server(message) => message.kind(),
            LineContent::Continued(_) => "Continued",
            LineContent::Bytes(_) => "Bytes",
            LineContent::Cut(_) => "Cut",
        }
    }
}

/// Where a line stands in a recording.
#[derive(Clone, Copy, Debug, Default, PartialEq, Eq, Serialize)]
pub struct LinePosition {
    #[serde(skip_serializing_if = "Option::is_none")]
    pub connection: Option<u32>,
    #[serde(skip_serializing_if = "Option::is_none")]
    pub time: Option<u64>,
    #[serde(skip_serializing_if = "Option::is_none", serialize_with = "name_side")]
    pub side: Option<Side>,
    /// It begins a record, though the line before is of this side and time too.
    #[serde(skip_serializing_if = "is_false")]
    pub apart: bool,
    /// How many bytes of the message are in this record, where not all that are left.
    #[serde(skip_serializing_if = "Option::is_none")]
    pub here: Option<usize>,
}

fn is_false(value: &bool) -> bool {
    !value
}

fn name_side<S: serde::Serializer>(side: &Option<Side>, to: S) -> Result<S::Ok, S::Error> {
    match side {
        Some(side) => SideName::serialize(side, to),
        None => to.serialize_none(),
    }
}

#[derive(Serialize)]
struct WrittenLine<'l, 'a> {
    #[serde(flatten)]
    position: LinePosition,
    kind: &'static str,
    #[serde(flatten)]
    content: &'l LineContent<'a>,
}

/// Appends a line.
pub fn put(out: &mut Vec<u8>, position: LinePosition, content: &LineContent<'_>) {
    let kind = content.kind();
    put_json(out, &WrittenLine { position, kind, content });
    out.push(b'\n');
}

/// Makes the lines of events.
#[derive(Default)]
pub struct LineWriter {
    /// The record that the next event of a message may go on with.
    last: Option<(u32, u64, Side)>,
    /// How the lines of that record begin.
    begin: Vec<u8>,
    /// A message as its fields give it.
    again: Vec<u8>,
}

impl LineWriter {
    /// Appends the line of an event.
    pub fn event(&mut self, out: &mut Vec<u8>, event: &Event<'_>) {
        let position = self.position(event);
        if !self.put_laid_out(out, position, &event.kind) {
            put(out, position, &self.content(&event.kind));
        }
    }

    /// Where the line of an event stands.
    fn position(&mut self, event: &Event<'_>) -> LinePosition {
        let (side, here) = match &event.kind {
            EventKind::Message { side, message, here } => {
                (Some(*side), Some(*here).filter(|here| *here < message.bytes.len()))
            }
            EventKind::Continued { side, here } => (Some(*side), *here),
            EventKind::Bytes { side, .. } | EventKind::LeftOut { side, .. } => (Some(*side), None),
            _ => (None, None),
        };
        let is_left_out = matches!(event.kind, EventKind::LeftOut { .. });
        let record = side.filter(|_| !is_left_out).map(|side| (event.connection, event.time, side));
        let is_same = record.is_some() && record == self.last;
        self.last = record;
        let (connection, time) = (Some(event.connection), Some(event.time));
        let position = LinePosition { connection, time, side, apart: false, here: None };
        if let Some(side) = side.filter(|_| !is_same) {
            self.begin.clear();
            put_begin(&mut self.begin, event, side);
        }
        LinePosition { apart: event.begins && is_same, here, ..position }
    }

    /// Appends the line of a message that has a layout, and nothing of others.
    fn put_laid_out(
        &mut self,
        out: &mut Vec<u8>,
        position: LinePosition,
        kind: &EventKind<'_>,
    ) -> bool {
        let message = match kind {
            EventKind::Message { message, .. } if !position.apart && position.here.is_none() => {
                message
            }
            _ => return false,
        };
        let layout = match (position.side, message.tag) {
            (Some(side), Some(tag)) => MessageLayout::of_tag(side, tag),
            _ => None,
        };
        let start = out.len();
        out.extend_from_slice(&self.begin);
        let is_put = layout.is_some_and(|layout| layout.put(out, message.body()));
        if !is_put {
            out.truncate(start);
        }
        is_put
    }

    /// What the line of an event says.
    fn content<'m>(&mut self, kind: &'m EventKind<'_>) -> LineContent<'m> {
        match kind {
            EventKind::Opened(address) => {
                LineContent::Opened(OpenedFields { address: JsonBytes(Cow::Borrowed(address)) })
            }
            EventKind::Closed(side) => LineContent::Closed(ClosedFields { by: *side }),
            EventKind::Encrypted => LineContent::Encrypted(NoFields {}),
            EventKind::LeftOut { tag, length, .. } => {
                LineContent::LeftOut(LeftOutFields { tag: Tag(*tag), length: *length })
            }
            EventKind::Message { side, message, .. } => self.message(*side, message),
            EventKind::Continued { .. } => LineContent::Continued(NoFields {}),
            EventKind::Bytes { bytes, .. } => {
                LineContent::Bytes(BytesFields { data: JsonBytes(Cow::Borrowed(bytes)) })
            }
        }
    }

    /// The fields of a message, where these give the same bytes back.
    pub fn message<'m>(&mut self, side: Side, message: &'m RawMessage<'_>) -> LineContent<'m> {
        let (tag, body) = (message.tag, message.body());
        let content = match side {
            Side::Client => pgmsg::frontend::Message::read_body(tag, body)
                .ok()
                .and_then(|it| ClientMessage::of(&it))
                .map(LineContent::Client),
            Side::Server => pgmsg::backend::Message::read_body(tag, body)
                .ok()
                .and_then(|it| ServerMessage::of(&it))
                .map(LineContent::Server),
        };
        self.again.clear();
        match (content, tag) {
            (Some(content), _)
                if write(&content, &mut self.again).is_ok() && self.again == *message.bytes =>
            {
                content
            }
            (_, Some(tag)) => other(side, untyped(tag, body)),
            (_, None) => {
                LineContent::Bytes(BytesFields { data: JsonBytes(Cow::Borrowed(&message.bytes)) })
            }
        }
    }
}

/// Appends the front of an event's line up to the name of its kind.
fn put_begin(out: &mut Vec<u8>, event: &Event<'_>, side: Side) {
    // Writing to a vector never fails.
    out.extend_from_slice(br#"{"connection":"#);
    let _ = serde_json::to_writer(&mut *out, &event.connection);
    out.extend_from_slice(br#","time":"#);
    let _ = serde_json::to_writer(&mut *out, &event.time);
    out.extend_from_slice(match side {
        Side::Client => br#","side":"client","kind":""#,
        Side::Server => br#","side":"server","kind":""#,
    });
}

fn other(side: Side, other: OtherFields<'_>) -> LineContent<'_> {
    match side {
        Side::Client => LineContent::Client(ClientMessage::Other(other)),
        Side::Server => LineContent::Server(ServerMessage::Other(other)),
    }
}

/// Appends the bytes of a message; others have none.
pub fn write(content: &LineContent<'_>, out: &mut Vec<u8>) -> Result<(), pgmsg::Refusal> {
    match content {
        LineContent::Client(message) => message.write(out),
        LineContent::Server(message) => message.write(out),
        _ => Ok(()),
    }
}
