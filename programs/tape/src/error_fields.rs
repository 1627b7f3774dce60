//! The fields of errors and notices, as an object of their names and values in the order of the message.

use crate::json_bytes::JsonBytes;
use pgmsg::backend::{Field, Fields};
use pgmsg::ByteStr;
use serde::de::{self, Deserialize, Deserializer, MapAccess, Visitor};
use serde::ser::{Serialize, SerializeMap, Serializer};
use std::borrow::Cow;
use std::fmt;

/// The names of the fields by their letters. A field of another letter has that for a name.
const NAMES: [(u8, &str); 18] = [
    (b'S', "localized_severity"),
    (b'V', "severity"),
    (b'C', "code"),
    (b'M', "message"),
    (b'D', "detail"),
    (b'H', "hint"),
    (b'P', "position"),
    (b'p', "internal_position"),
    (b'q', "internal_query"),
    (b'W', "where"),
    (b's', "schema"),
    (b't', "table"),
    (b'c', "column"),
    (b'd', "data_type"),
    (b'n', "constraint"),
    (b'F', "file"),
    (b'L', "line"),
    (b'R', "routine"),
];

/// More fields than a server sends.
const MANY: usize = 64;

/// The fields by their letters, in the order of the message.
#[derive(Debug, PartialEq)]
pub struct ErrorFields<'a>(Vec<(u8, JsonBytes<'a>)>);

impl<'a> ErrorFields<'a> {
    /// The fields, unless a letter comes again.
    pub fn of(fields: &Fields<'a>) -> Option<ErrorFields<'a>> {
        let is_again = |(at, it): (usize, &Field<'_>)| {
            fields[..at].iter().any(|before| before.letter == it.letter)
        };
        if fields.len() > MANY || fields.iter().enumerate().any(is_again) {
            return None;
        }
        let fields = fields.iter().map(|it| (it.letter, JsonBytes(Cow::Borrowed(it.value.0))));
        Some(ErrorFields(fields.collect()))
    }

    pub fn list(&self) -> Fields<'_> {
        let fields =
            self.0.iter().map(|(letter, text)| Field { letter: *letter, value: ByteStr(&text.0) });
        fields.collect()
    }
}

fn letter_of(name: &str) -> Option<u8> {
    let mut letters = name.chars();
    match (letters.next(), letters.next()) {
        (Some(letter), None) => u8::try_from(u32::from(letter)).ok(),
        _ => NAMES.iter().find(|(_, it)| *it == name).map(|(letter, _)| *letter),
    }
}

impl Serialize for ErrorFields<'_> {
    fn serialize<S: Serializer>(&self, to: S) -> Result<S::Ok, S::Error> {
        let mut map = to.serialize_map(Some(self.0.len()))?;
        for (letter, text) in &self.0 {
            match NAMES.iter().find(|(it, _)| it == letter) {
                Some((_, name)) => map.serialize_entry(name, text)?,
                None => map.serialize_entry(&char::from(*letter), text)?,
            }
        }
        map.end()
    }
}

impl<'de: 'a, 'a> Deserialize<'de> for ErrorFields<'a> {
    fn deserialize<D: Deserializer<'de>>(from: D) -> Result<ErrorFields<'a>, D::Error> {
        from.deserialize_map(ErrorFieldsVisitor)
    }
}

struct ErrorFieldsVisitor;

impl<'de> Visitor<'de> for ErrorFieldsVisitor {
    type Value = ErrorFields<'de>;

    fn expecting(&self, f: &mut fmt::Formatter<'_>) -> fmt::Result {
        f.write_str("an object of fields")
    }

    fn visit_map<M: MapAccess<'de>>(self, mut map: M) -> Result<ErrorFields<'de>, M::Error> {
        let mut fields: Vec<(u8, JsonBytes<'de>)> = Vec::new();
        while let Some(name) = map.next_key::<Cow<'de, str>>()? {
            let letter = letter_of(&name).ok_or_else(|| {
                de::Error::custom(format_args!("no field of an error is `{name}`"))
            })?;
            if fields.iter().any(|(it, _)| *it == letter) {
                return Err(de::Error::custom(format_args!("the field `{name}` is there twice")));
            }
            fields.push((letter, map.next_value()?));
        }
        Ok(ErrorFields(fields))
    }
}
