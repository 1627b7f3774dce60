//! Messages as the fields of their lines.

use super::{FieldLayout, FieldType, MessageLayout};
use crate::json_bytes::put_json_bytes;
use memchr::memchr;
use serde::Serialize;
use std::str;

impl MessageLayout {
    /// Appends the rest of a line from the kind on, by the body of a message, where that is laid out so.
    pub fn put(&self, out: &mut Vec<u8>, body: &[u8]) -> bool {
        out.extend_from_slice(self.kind.as_bytes());
        let mut rest = body;
        for field in self.fields {
            out.extend_from_slice(field.key.as_bytes());
            match field.part.put(out, rest) {
                Some(after) => rest = after,
                None => return false,
            }
        }
        out.extend_from_slice(b"}\n");
        rest.is_empty()
    }
}

impl FieldType {
    /// Appends the part at the front of bytes as JSON, and gives what follows it.
    fn put<'b>(&self, out: &mut Vec<u8>, bytes: &'b [u8]) -> Option<&'b [u8]> {
        match self {
            FieldType::Text => {
                let (text, rest) = until_nul(bytes)?;
                put_json_bytes(out, text);
                Some(rest)
            }
            FieldType::Name => {
                let (name, rest) = until_nul(bytes)?;
                put_json_bytes(out, str::from_utf8(name).ok()?.as_bytes());
                Some(rest)
            }
            FieldType::Rest => {
                put_json_bytes(out, bytes);
                Some(&[])
            }
            FieldType::Value => put_value(out, bytes),
            FieldType::I16 => put_number(out, bytes, i16::from_be_bytes),
            FieldType::I32 => put_number(out, bytes, i32::from_be_bytes),
            FieldType::U32 => put_number(out, bytes, u32::from_be_bytes),
            FieldType::Letter(letters) => {
                let (letter, rest) = bytes.split_first()?;
                let (_, name) = letters.iter().find(|(it, _)| it == letter)?;
                out.extend_from_slice(name.as_bytes());
                Some(rest)
            }
            FieldType::List(item) => put_list(out, bytes, item),
            FieldType::Object(fields) => put_object(out, bytes, fields),
        }
    }
}

/// A text and what follows its NUL.
fn until_nul(bytes: &[u8]) -> Option<(&[u8], &[u8])> {
    let end = memchr(0, bytes)?;
    Some((&bytes[..end], &bytes[end + 1..]))
}

/// The first bytes, and what follows them.
fn split<const N: usize>(bytes: &[u8]) -> Option<([u8; N], &[u8])> {
    let front = bytes.get(..N)?.try_into().ok()?;
    Some((front, &bytes[N..]))
}

fn put_number<'b, const N: usize, T: Serialize>(
    out: &mut Vec<u8>,
    bytes: &'b [u8],
    number: fn([u8; N]) -> T,
) -> Option<&'b [u8]> {
    let (front, rest) = split(bytes)?;
    serde_json::to_writer(out, &number(front)).ok()?;
    Some(rest)
}

fn put_value<'b>(out: &mut Vec<u8>, bytes: &'b [u8]) -> Option<&'b [u8]> {
    let (length, rest) = split(bytes)?;
    match i32::from_be_bytes(length) {
        -1 => {
            out.extend_from_slice(b"null");
            Some(rest)
        }
        length => {
            let length = usize::try_from(length).ok()?;
            put_json_bytes(out, rest.get(..length)?);
            Some(&rest[length..])
        }
    }
}

fn put_list<'b>(out: &mut Vec<u8>, bytes: &'b [u8], item: &FieldType) -> Option<&'b [u8]> {
    let (count, mut rest) = split(bytes)?;
    out.push(b'[');
    for at in 0..u16::from_be_bytes(count) {
        if at > 0 {
            out.push(b',');
        }
        rest = item.put(out, rest)?;
    }
    out.push(b']');
    Some(rest)
}

fn put_object<'b>(out: &mut Vec<u8>, bytes: &'b [u8], fields: &[FieldLayout]) -> Option<&'b [u8]> {
    let mut rest = bytes;
    out.push(b'{');
    for (at, field) in fields.iter().enumerate() {
        // No comma is before the first one.
        out.extend_from_slice(&field.key.as_bytes()[usize::from(at == 0)..]);
        rest = field.part.put(out, rest)?;
    }
    out.push(b'}');
    Some(rest)
}
