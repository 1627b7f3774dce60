//! The kinds of messages and their fields, as JSON has them.

use crate::json_bytes::JsonBytes;
use serde::{Deserialize, Serialize};

/// Values of parameters or rows, of which some are NULL.
pub type Values<'a> = Vec<Option<JsonBytes<'a>>>;

/// Makes the enum of a side by a table of its kinds and their fields.
macro_rules! kinds {
    ($(#[$doc:meta])* $message:ident of a $side:literal { $($name:ident($shape:ty),)* }) => {
        $(#[$doc])*
        #[derive(Debug, PartialEq, serde::Serialize)]
        #[serde(untagged)]
        #[allow(clippy::upper_case_acronyms)]
        pub enum $message<'a> {
            $($name($shape),)*
        }

        impl<'a> $message<'a> {
            /// The name of the message.
            pub fn kind(&self) -> &'static str {
                match self {
                    $($message::$name(_) => stringify!($name),)*
                }
            }

            /// Reads the fields of a message of a kind.
            pub fn read<D: serde::Deserializer<'a>>(kind: &str, fields: D) -> Result<Self, D::Error> {
                match kind {
                    $(stringify!($name) => serde::Deserialize::deserialize(fields).map($message::$name),)*
                    _ => Err(serde::de::Error::custom(format_args!(
                        "a {} has no message of the kind `{kind}`",
                        $side
                    ))),
                }
            }
        }
    };
}

pub(crate) use kinds;

/// Defines the fields of a kind of message.
macro_rules! message_fields {
    ($($(#[$doc:meta])* $name:ident { $($(#[$more:meta])* $field:ident: $type:ty,)* })*) => {
        $(
            #[derive(Debug, PartialEq, Serialize, Deserialize)]
            $(#[$doc])*
            #[serde(deny_unknown_fields, bound(deserialize = "'de: 'a"))]
            pub struct $name<'a> {
                $($(#[$more])* pub $field: $type,)*
            }
        )*
    };
}

message_fields! {
    StartupFields { minor: u16, settings: Vec<SettingFields<'a>>, }
    #[serde(expecting = "struct Setting")]
    SettingFields { name: JsonBytes<'a>, value: JsonBytes<'a>, }
    KeyFields { process_id: u32, secret_key: JsonBytes<'a>, }
    BindFields {
        portal: JsonBytes<'a>,
        statement: JsonBytes<'a>,
        formats: Vec<i16>,
        values: Values<'a>,
        result_formats: Vec<i16>,
    }
    DataFields { data: JsonBytes<'a>, }
    CopyFailFields { reason: JsonBytes<'a>, }
    TargetFields { target: TargetKind, name: JsonBytes<'a>, }
    ExecuteFields { portal: JsonBytes<'a>, max_rows: u32, }
    FunctionCallFields {
        object_id: u32,
        formats: Vec<i16>,
        arguments: Values<'a>,
        result_format: i16,
    }
    ParseFields { statement: JsonBytes<'a>, query: JsonBytes<'a>, types: Vec<u32>, }
    PasswordFields { password: JsonBytes<'a>, }
    SaslInitialFields { mechanism: JsonBytes<'a>, response: Option<JsonBytes<'a>>, }
    QueryFields { query: JsonBytes<'a>, }
    MechanismsFields { mechanisms: Vec<JsonBytes<'a>>, }
    SaltFields { salt: JsonBytes<'a>, }
    AuthenticationFields { method: u32, data: JsonBytes<'a>, }
    CommandCompleteFields { command: JsonBytes<'a>, }
    DataRowFields { values: Values<'a>, }
    FunctionResultFields { value: Option<JsonBytes<'a>>, }
    NegotiationFields { minor: u16, options: Vec<JsonBytes<'a>>, }
    NotificationFields { process_id: u32, channel: JsonBytes<'a>, payload: JsonBytes<'a>, }
    RowDescriptionFields { columns: Vec<ColumnFields<'a>>, }
    #[serde(expecting = "struct Column")]
    ColumnFields {
        name: JsonBytes<'a>,
        table: u32,
        attribute: i16,
        type_id: u32,
        type_size: i16,
        type_modifier: i32,
        format: i16,
    }
    /// A message that has no fields here: of an unknown tag, or of bytes that its fields wouldn't give back.
    OtherFields { tag: Tag, body: JsonBytes<'a>, }
}

/// A message without fields.
#[derive(Debug, PartialEq, Serialize, Deserialize)]
#[serde(deny_unknown_fields)]
pub struct NoFields {}

#[derive(Debug, PartialEq, Serialize, Deserialize)]
#[serde(deny_unknown_fields)]
pub struct CopyResponseFields {
    pub format: i8,
    pub columns: Vec<i16>,
}

#[derive(Debug, PartialEq, Serialize, Deserialize)]
#[serde(deny_unknown_fields)]
pub struct ParameterDescriptionFields {
    pub types: Vec<u32>,
}

#[derive(Debug, PartialEq, Serialize, Deserialize)]
#[serde(deny_unknown_fields)]
pub struct ReadyForQueryFields {
    pub status: StatusLetter,
}

/// Whether a transaction is open, by the letter of the protocol.
#[derive(Clone, Copy, Debug, PartialEq, Eq, Serialize, Deserialize)]
pub enum StatusLetter {
    I,
    T,
    E,
}

#[derive(Clone, Copy, Debug, PartialEq, Eq, Serialize, Deserialize)]
#[serde(rename_all = "lowercase")]
pub enum TargetKind {
    Statement,
    Portal,
}

/// A tag, as the character of its number.
#[derive(Clone, Copy, Debug, PartialEq, Eq, Serialize, Deserialize)]
#[serde(try_from = "char", into = "char")]
pub struct Tag(pub u8);

impl From<Tag> for char {
    fn from(tag: Tag) -> char {
        char::from(tag.0)
    }
}

impl TryFrom<char> for Tag {
    type Error = &'static str;

    fn try_from(tag: char) -> Result<Tag, Self::Error> {
        u8::try_from(u32::from(tag)).map(Tag).map_err(|_| "a tag is one byte")
    }
}
