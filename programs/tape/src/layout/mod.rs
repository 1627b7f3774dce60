//! The layouts of the messages that recordings have most of, as "Message Formats" of PostgreSQL's documentation has them. By
//! them a message becomes a line, and a line a message, in one pass without fields in between. A message that isn't laid out
//! so is left to the library, and a line that an export would write otherwise to a reader of JSON; tests compare what both
//! ways give.

mod put;
mod take;

pub use take::LayoutReader;

use memchr::memchr;
use recording::Side;

/// What a field of a message is, or an element of one.
#[derive(Debug)]
enum FieldType {
    /// A text, which a NUL ends.
    Text,
    /// The same, where it is UTF-8.
    Name,
    /// All bytes that are left.
    Rest,
    /// The length of a value and its bytes, or -1 for NULL.
    Value,
    I16,
    I32,
    U32,
    /// A letter, and the string that a line has for it.
    Letter(&'static [(u8, &'static str)]),
    /// A count of 16 bits, and as many parts.
    List(&'static FieldType),
    /// Parts that have names.
    Object(&'static [FieldLayout]),
}

#[derive(Debug)]
struct FieldLayout {
    /// The name as it stands between fields of a line: `,"name":`.
    key: &'static str,
    part: FieldType,
}

/// The layout of a kind of message: its fields in the order of the line, which is that of the message.
#[derive(Debug)]
pub struct MessageLayout {
    side: Side,
    tag: u8,
    /// The name of the kind as it stands in a line after the first quote: `Query"`.
    kind: &'static str,
    fields: &'static [FieldLayout],
}

impl MessageLayout {
    /// The layout of a side's messages of a tag.
    pub fn of_tag(side: Side, tag: u8) -> Option<&'static MessageLayout> {
        LAYOUTS.iter().find(|it| it.tag == tag && it.side == side)
    }

    /// The layout of a side's messages whose kind stands at the front of a text, and what follows that.
    fn of_kind(side: Side, text: &[u8]) -> Option<(&'static MessageLayout, &[u8])> {
        let (kind, rest) = text.split_at(memchr(b'"', text)? + 1);
        let layout = LAYOUTS.iter().find(|it| it.side == side && it.kind.as_bytes() == kind)?;
        Some((layout, rest))
    }
}

macro_rules! fields {
    ($($name:ident: $part:expr),*) => {
        &[$(FieldLayout { key: concat!(",\"", stringify!($name), "\":"), part: $part }),*]
    };
}

macro_rules! layouts {
    ($($side:ident $tag:literal $kind:ident { $($fields:tt)* })*) => {
        &[$(MessageLayout {
            side: Side::$side,
            tag: $tag,
            kind: concat!(stringify!($kind), "\""),
            fields: fields!($($fields)*),
        }),*]
    };
}

const STATUS: FieldType = FieldType::Letter(&[(b'I', "\"I\""), (b'T', "\"T\""), (b'E', "\"E\"")]);
const TARGET: FieldType = FieldType::Letter(&[(b'S', "\"statement\""), (b'P', "\"portal\"")]);
const VALUES: FieldType = FieldType::List(&FieldType::Value);
const FORMATS: FieldType = FieldType::List(&FieldType::I16);
const TYPES: FieldType = FieldType::List(&FieldType::U32);
const COLUMN: FieldType = FieldType::Object(fields! {
    name: FieldType::Name,
    table: FieldType::U32,
    attribute: FieldType::I16,
    type_id: FieldType::U32,
    type_size: FieldType::I16,
    type_modifier: FieldType::I32,
    format: FieldType::I16
});

static LAYOUTS: &[MessageLayout] = layouts! {
    Server b'D' DataRow { values: VALUES }
    Server b'd' CopyData { data: FieldType::Rest }
    Client b'd' CopyData { data: FieldType::Rest }
    Server b'C' CommandComplete { command: FieldType::Text }
    Server b'Z' ReadyForQuery { status: STATUS }
    Client b'S' Sync {}
    Client b'B' Bind {
        portal: FieldType::Text,
        statement: FieldType::Text,
        formats: FORMATS,
        values: VALUES,
        result_formats: FORMATS
    }
    Client b'E' Execute { portal: FieldType::Text, max_rows: FieldType::U32 }
    Server b'2' BindComplete {}
    Client b'P' Parse { statement: FieldType::Text, query: FieldType::Text, types: TYPES }
    Server b'1' ParseComplete {}
    Client b'D' Describe { target: TARGET, name: FieldType::Text }
    Client b'C' Close { target: TARGET, name: FieldType::Text }
    Server b'3' CloseComplete {}
    Client b'Q' Query { query: FieldType::Text }
    Server b'T' RowDescription { columns: FieldType::List(&COLUMN) }
    Server b't' ParameterDescription { types: TYPES }
    Server b'n' NoData {}
    Server b'S' ParameterStatus { name: FieldType::Name, value: FieldType::Name }
    Server b'A' NotificationResponse {
        process_id: FieldType::U32,
        channel: FieldType::Text,
        payload: FieldType::Text
    }
    Server b's' PortalSuspended {}
    Server b'I' EmptyQueryResponse {}
    Client b'H' Flush {}
    Client b'X' Terminate {}
    Server b'c' CopyDone {}
    Client b'c' CopyDone {}
};

#[cfg(test)]
mod tests {
    use super::*;
    use crate::event::RawMessage;
    use crate::line::{self, LinePosition, LineWriter};
    use crate::parse;
    use crate::record_assembler::RecordPosition;
    use crate::samples;
    use pgmsg::backend::{self, Column};
    use pgmsg::frontend;
    use rand::rngs::SmallRng;
    use rand::{Rng, SeedableRng};

    const BEGIN: &str = r#"{"connection":1,"time":5,"side":""#;

    /// The messages of the samples that have a layout, and two that are texts as a whole.
    fn messages() -> Vec<(Side, Vec<u8>)> {
        let (mut of_client, mut of_server) =
            (samples::client_messages(), samples::server_messages());
        of_client.push(frontend::Message::Query("SELECT 1".into()));
        of_server.push(backend::Message::RowDescription([Column::new("one", 23)].into()));
        let mut all = Vec::new();
        for message in of_client {
            let mut bytes = Vec::new();
            message.write(&mut bytes).unwrap();
            all.push((Side::Client, bytes));
        }
        for message in of_server {
            let mut bytes = Vec::new();
            message.write(&mut bytes).unwrap();
            all.push((Side::Server, bytes));
        }
        all.retain(|(side, bytes)| MessageLayout::of_tag(*side, bytes[0]).is_some());
        all
    }

    /// The line of a message by the library and by serde.
    fn by_fields(side: Side, bytes: &[u8]) -> String {
        let (mut out, mut writer) = (Vec::new(), LineWriter::default());
        let position = LinePosition {
            connection: Some(1),
            time: Some(5),
            side: Some(side),
            ..LinePosition::default()
        };
        let message = RawMessage { tag: Some(bytes[0]), bytes: bytes.into() };
        line::put(&mut out, position, &writer.message(side, &message));
        String::from_utf8(out).unwrap()
    }

    /// The line of a message by its layout.
    fn by_layout(side: Side, bytes: &[u8]) -> Option<String> {
        let side_name = if side == Side::Client { "client" } else { "server" };
        let mut out = format!("{BEGIN}{side_name}\",\"kind\":\"").into_bytes();
        let is_put = MessageLayout::of_tag(side, bytes[0]).unwrap().put(&mut out, &bytes[5..]);
        is_put.then(|| String::from_utf8(out).unwrap())
    }

    /// The message of a line by serde and by the library.
    fn read(line: &str) -> Option<(LinePosition, Vec<u8>)> {
        let line = parse::read(line).ok()?;
        let mut out = Vec::new();
        line::write(&line.content, &mut out).ok()?;
        Some((line.position, out))
    }

    #[test]
    fn each_message_with_a_layout_becomes_its_line_and_the_same_message() {
        let (mut kinds, mut reader) = (Vec::new(), LayoutReader::default());
        for (side, message) in messages() {
            let line = by_layout(side, &message).unwrap();
            assert_eq!(line, by_fields(side, &message));
            let mut out = Vec::new();
            if let Some(position) = reader.take(line.as_bytes(), &mut out) {
                assert_eq!(
                    position,
                    RecordPosition { connection: 1, time: 5, side, begins: false }
                );
                assert_eq!(out, message, "{line}");
                kinds.push((side, message[0]));
            }
        }
        let missing = LAYOUTS.iter().filter(|it| !kinds.contains(&(it.side, it.tag)));
        assert_eq!(missing.map(|it| it.kind).collect::<Vec<_>>(), [""; 0]);
    }

    #[test]
    fn what_a_layout_gives_of_a_changed_message_is_what_its_fields_give() {
        let (mut random, mut laid_out) = (SmallRng::seed_from_u64(11), 0);
        for (side, message) in messages() {
            for _ in 0..2_000 {
                let mut changed = message[5..].to_vec();
                for _ in 0..random.gen_range(1..3) {
                    let at = random.gen_range(0..=changed.len());
                    match random.gen_range(0..3) {
                        0 => changed.insert(at, [0, 0xff, b'"', random.gen()][at % 4]),
                        1 => changed.truncate(at),
                        _ => changed.iter_mut().skip(at).take(1).for_each(|it| *it = random.gen()),
                    }
                }
                let length = (changed.len() as u32 + 4).to_be_bytes();
                let bytes = [&message[..1], &length, &changed].concat();
                if let Some(line) = by_layout(side, &bytes) {
                    laid_out += 1;
                    assert_eq!(line, by_fields(side, &bytes));
                }
            }
        }
        assert!(laid_out > 5_000, "{laid_out}");
    }

    #[test]
    fn what_a_changed_line_gives_is_what_its_fields_give() {
        let (mut random, mut taken) = (SmallRng::seed_from_u64(12), 0);
        let mut reader = LayoutReader::default();
        for (side, message) in messages() {
            let line = by_fields(side, &message).into_bytes();
            for _ in 0..2_000 {
                let mut changed = line.clone();
                for _ in 0..random.gen_range(1..3) {
                    let at = random.gen_range(0..changed.len());
                    match random.gen_range(0..3) {
                        0 => changed.insert(at, b"\"{}[],:0-1\\n\t "[random.gen_range(0..14)]),
                        1 => drop(changed.remove(at)),
                        _ => changed[at] = random.gen_range(b' '..0x7f),
                    }
                }
                let mut out = Vec::new();
                if let Some(position) = reader.take(&changed, &mut out) {
                    taken += 1;
                    let changed = String::from_utf8(changed).unwrap();
                    let (line, wanted) = read(&changed).unwrap_or_else(|| panic!("{changed}"));
                    assert_eq!(out, wanted, "{changed}");
                    let found = (line.connection, line.time, line.side, line.here);
                    let wanted =
                        (Some(position.connection), Some(position.time), Some(position.side), None);
                    assert_eq!(found, wanted, "{changed}");
                }
            }
        }
        assert!(taken > 500, "{taken}");
    }
}
