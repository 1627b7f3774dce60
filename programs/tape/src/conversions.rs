//! Parts that messages of both sides have, as JSON has them and as the protocol does.

use crate::fields::{OtherFields, Tag, Values};
use crate::json_bytes::JsonBytes;
use pgmsg::{ByteStr, Format, List, Refusal, Value};
use std::borrow::Cow;

/// Bytes of a message as JSON has them.
pub fn json_bytes<'a>(bytes: impl Into<ByteStr<'a>>) -> JsonBytes<'a> {
    JsonBytes(Cow::Borrowed(bytes.into().0))
}

/// Values of a message as JSON has them.
pub fn values<'a>(values: &[Value<'a>]) -> Values<'a> {
    values.iter().map(|value| value.bytes().map(JsonBytes::from)).collect()
}

/// Values as a message has them.
pub fn list<'t>(values: &'t Values<'_>) -> List<'t, Value<'t>> {
    values.iter().map(|value| value.as_ref().map(|json_bytes| &json_bytes.0).into()).collect()
}

/// The codes of formats as JSON has them.
pub fn formats(formats: &[Format]) -> Vec<i16> {
    formats.iter().map(|format| format.0).collect()
}

/// The codes of formats as a message has them.
pub fn format_list(formats: &[i16]) -> List<'static, Format> {
    formats.iter().copied().map(Format).collect()
}

/// A message as its tag and its body.
pub fn untyped(tag: u8, body: &[u8]) -> OtherFields<'_> {
    OtherFields { tag: Tag(tag), body: body.into() }
}

/// Appends a message by its tag and its body.
pub fn other(it: &OtherFields<'_>, out: &mut Vec<u8>) -> Result<(), Refusal> {
    pgmsg::backend::Other { tag: it.tag.0, body: ByteStr(&it.body.0) }.write(out)
}
