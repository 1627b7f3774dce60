//! The reading of a line.

use crate::client::ClientMessage;
use crate::line::{LineContent, LinePosition, SideName};
use crate::server::ServerMessage;
use recording::Side;
use serde::de::value::MapAccessDeserializer;
use serde::de::{Deserialize, Deserializer, Error, MapAccess, Visitor};
use serde_json::value::RawValue;
use std::borrow::Cow;
use std::fmt;

/// A line that was read.
#[derive(Debug, PartialEq)]
pub struct ParsedLine<'a> {
    pub position: LinePosition,
    pub content: LineContent<'a>,
}

/// The fields that stand before those of a kind, and the one that ends them.
const POSITION: [&str; 6] = ["connection", "time", "side", "apart", "here", "kind"];

/// The same, by their places in that list.
#[derive(Clone, Copy, serde::Deserialize)]
#[serde(field_identifier, rename_all = "lowercase")]
enum PositionField {
    Connection,
    Time,
    Side,
    Apart,
    Here,
    Kind,
}

/// A name, borrowed where it has no escapes.
#[derive(serde::Deserialize)]
struct FieldName<'a>(#[serde(borrow)] Cow<'a, str>);

/// Reads a line whose fields stand in the order that they are written in.
pub fn read(text: &str) -> Result<ParsedLine<'_>, serde_json::Error> {
    serde_json::from_str(text)
}

/// The line with its fields in the order that they are written in, where they stand in another one.
pub fn ordered(text: &str) -> Option<String> {
    let ObjectFields(mut fields) = serde_json::from_str(text).ok()?;
    let rank = |name: &str| POSITION.iter().position(|it| *it == name).unwrap_or(POSITION.len());
    if fields.windows(2).all(|pair| rank(&pair[0].0 .0) <= rank(&pair[1].0 .0)) {
        return None;
    }
    fields.sort_by_key(|(name, _)| rank(&name.0));
    let fields: Result<Vec<String>, _> = fields
        .iter()
        .map(|(name, value)| {
            serde_json::to_string(&name.0).map(|name| format!("{name}:{}", value.get()))
        })
        .collect();
    Some(format!("{{{}}}", fields.ok()?.join(",")))
}

/// The fields of an object as they stand in it.
struct ObjectFields<'a>(Vec<(FieldName<'a>, &'a RawValue)>);

impl<'de> Deserialize<'de> for ObjectFields<'de> {
    fn deserialize<D: Deserializer<'de>>(from: D) -> Result<ObjectFields<'de>, D::Error> {
        from.deserialize_map(ObjectFieldsVisitor)
    }
}

struct ObjectFieldsVisitor;

impl<'de> Visitor<'de> for ObjectFieldsVisitor {
    type Value = ObjectFields<'de>;

    fn expecting(&self, f: &mut fmt::Formatter<'_>) -> fmt::Result {
        f.write_str("an object")
    }

    fn visit_map<M: MapAccess<'de>>(self, mut map: M) -> Result<ObjectFields<'de>, M::Error> {
        let mut fields = Vec::new();
        while let Some(field) = map.next_entry()? {
            fields.push(field);
        }
        Ok(ObjectFields(fields))
    }
}

impl<'de> Deserialize<'de> for ParsedLine<'de> {
    fn deserialize<D: Deserializer<'de>>(from: D) -> Result<ParsedLine<'de>, D::Error> {
        from.deserialize_map(LineVisitor)
    }
}

struct LineVisitor;

/// The name of a side in a line.
#[derive(serde::Deserialize)]
struct SideField(#[serde(with = "SideName")] Side);

impl<'de> Visitor<'de> for LineVisitor {
    type Value = ParsedLine<'de>;

    fn expecting(&self, f: &mut fmt::Formatter<'_>) -> fmt::Result {
        f.write_str("a line of a recording, which is an object")
    }

    fn visit_map<M: MapAccess<'de>>(self, mut map: M) -> Result<ParsedLine<'de>, M::Error> {
        let mut position = LinePosition::default();
        let mut seen = [false; POSITION.len()];
        while let Some(part) = map.next_key::<PositionField>()? {
            let at = part as usize;
            if std::mem::replace(&mut seen[at], true) {
                return Err(M::Error::duplicate_field(POSITION[at]));
            }
            match part {
                PositionField::Connection => position.connection = Some(map.next_value()?),
                PositionField::Time => position.time = Some(map.next_value()?),
                PositionField::Side => position.side = Some(map.next_value::<SideField>()?.0),
                PositionField::Apart => position.apart = map.next_value()?,
                PositionField::Here => position.here = Some(map.next_value()?),
                PositionField::Kind => {
                    let FieldName(kind) = map.next_value()?;
                    let content = content(&kind, position.side, MapAccessDeserializer::new(map))?;
                    check(&position, &content).map_err(M::Error::custom)?;
                    return Ok(ParsedLine { position, content });
                }
            }
        }
        Err(M::Error::missing_field("kind"))
    }
}

/// Reads the fields of a kind.
fn content<'de, D: Deserializer<'de>>(
    kind: &str,
    side: Option<Side>,
    fields: D,
) -> Result<LineContent<'de>, D::Error> {
    Ok(match (kind, side) {
        ("Recording", _) => LineContent::Recording(Deserialize::deserialize(fields)?),
        ("Opened", _) => LineContent::Opened(Deserialize::deserialize(fields)?),
        ("Closed", _) => LineContent::Closed(Deserialize::deserialize(fields)?),
        ("Encrypted", _) => LineContent::Encrypted(Deserialize::deserialize(fields)?),
        ("LeftOut", _) => LineContent::LeftOut(Deserialize::deserialize(fields)?),
        ("Continued", _) => LineContent::Continued(Deserialize::deserialize(fields)?),
        ("Bytes", _) => LineContent::Bytes(Deserialize::deserialize(fields)?),
        ("Cut", _) => LineContent::Cut(Deserialize::deserialize(fields)?),
        (_, Some(Side::Client)) => LineContent::Client(ClientMessage::read(kind, fields)?),
        (_, Some(Side::Server)) => LineContent::Server(ServerMessage::read(kind, fields)?),
        (_, None) => return Err(D::Error::missing_field("side")),
    })
}

/// Whether a line has the parts of a place that its kind needs, and no others.
fn check(position: &LinePosition, content: &LineContent<'_>) -> Result<(), String> {
    let has_place = !matches!(content, LineContent::Recording(_) | LineContent::Cut(_));
    let has_side = !matches!(
        content,
        LineContent::Recording(_)
            | LineContent::Cut(_)
            | LineContent::Opened(_)
            | LineContent::Closed(_)
            | LineContent::Encrypted(_)
    );
    let is_message = matches!(
        content,
        LineContent::Client(_)
            | LineContent::Server(_)
            | LineContent::Continued(_)
            | LineContent::Bytes(_)
    );
    let parts = [
        ("connection", position.connection.is_some(), has_place, has_place),
        ("time", position.time.is_some(), has_place, has_place),
        ("side", position.side.is_some(), has_side, has_side),
        ("apart", position.apart, false, is_message),
        ("here", position.here.is_some(), false, is_message),
    ];
    for (name, is_there, is_needed, is_allowed) in parts {
        if is_needed && !is_there {
            return Err(format!("missing field `{name}`"));
        }
        if is_there && !is_allowed {
            return Err(format!("a line of the kind `{}` has no field `{name}`", content.kind()));
        }
    }
    Ok(())
}
