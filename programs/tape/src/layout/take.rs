//! Lines as messages, where they are written as an export has them.

use super::{FieldLayout, FieldType, MessageLayout};
use crate::json_bytes::has;
use crate::record_assembler::RecordPosition;
use base64::{decode_config_buf, STANDARD};
use memchr::{memchr, memchr2};
use recording::Side;
use std::str::from_utf8;

/// What NULL has for the length of a value.
const NULL: [u8; 4] = [0xff; 4];

/// Reads the lines of messages that have a layout.
#[derive(Default)]
pub struct LayoutReader {
    /// How the last line began, up to the name of its kind, and what that says. Most lines begin as the one before.
    begin: Vec<u8>,
    position: Option<RecordPosition>,
}

impl LayoutReader {
    /// Appends the message of a line, and gives where that stands. Where it gives nothing, what is appended is no message.
    pub fn take(&mut self, line: &[u8], out: &mut Vec<u8>) -> Option<RecordPosition> {
        let line = line.strip_suffix(b"\n").unwrap_or(line);
        let is_other = has(line, |it| !(b' '..0x80).contains(&it));
        // No string has a control character.
        if is_other && (has(line, |it| it < b' ') || from_utf8(line).is_err()) {
            return None;
        }
        let (position, rest) = self.position(line)?;
        let (layout, rest) = MessageLayout::of_kind(position.side, rest)?;
        let rest = layout.take(rest, out)?;
        Some(position).filter(|_| rest == b"}")
    }

    /// Where a message's line stands, and what follows from the name of its kind on.
    fn position<'t>(&mut self, line: &'t [u8]) -> Option<(RecordPosition, &'t [u8])> {
        if let (Some(position), Some(rest)) = (self.position, line.strip_prefix(&self.begin[..])) {
            return Some((position, rest));
        }
        let (position, rest) = position(line)?;
        self.begin.clear();
        self.begin.extend_from_slice(&line[..line.len() - rest.len()]);
        self.position = Some(position);
        Some((position, rest))
    }
}

/// Where a message's line stands, and what follows from the name of its kind on.
fn position(line: &[u8]) -> Option<(RecordPosition, &[u8])> {
    let (connection, rest) = number(line.strip_prefix(br#"{"connection":"#)?)?;
    let (time, rest) = number(rest.strip_prefix(br#","time":"#)?)?;
    let rest = rest.strip_prefix(br#","side":""#)?;
    let (side, rest) = match rest.strip_prefix(b"client") {
        Some(rest) => (Side::Client, rest),
        None => (Side::Server, rest.strip_prefix(b"server")?),
    };
    Some((
        RecordPosition { connection, time, side, begins: false },
        rest.strip_prefix(br#"","kind":""#)?,
    ))
}

impl MessageLayout {
    /// Appends a message by the fields after its kind, and gives what follows them.
    fn take<'t>(&self, text: &'t [u8], out: &mut Vec<u8>) -> Option<&'t [u8]> {
        let (start, mut rest) = (out.len() + 1, text);
        out.extend_from_slice(&[self.tag, 0, 0, 0, 0]);
        for field in self.fields {
            rest = field.part.take(rest.strip_prefix(field.key.as_bytes())?, out)?;
        }
        let length = u32::try_from(out.len() - start).ok()?;
        out[start..start + 4].copy_from_slice(&length.to_be_bytes());
        Some(rest)
    }
}

impl FieldType {
    /// Appends a part by the JSON at the front of a text, and gives what follows that.
    fn take<'t>(&self, text: &'t [u8], out: &mut Vec<u8>) -> Option<&'t [u8]> {
        match self {
            FieldType::Text | FieldType::Name => {
                let rest = take_string(text, out)?;
                out.push(0);
                Some(rest)
            }
            FieldType::Rest => take_bytes(text, out),
            FieldType::Value => take_value(text, out),
            FieldType::I16 => take_number(text, out, i16::to_be_bytes),
            FieldType::I32 => take_number(text, out, i32::to_be_bytes),
            FieldType::U32 => take_number(text, out, u32::to_be_bytes),
            FieldType::Letter(letters) => {
                let found = |(letter, name): &(u8, &str)| {
                    Some((*letter, text.strip_prefix(name.as_bytes())?))
                };
                let (letter, rest) = letters.iter().find_map(found)?;
                out.push(letter);
                Some(rest)
            }
            FieldType::List(item) => take_list(text, out, item),
            FieldType::Object(fields) => take_object(text, out, fields),
        }
    }
}

/// Appends what a string has, where it has no other escapes than those of an export.
fn take_string<'t>(text: &'t [u8], out: &mut Vec<u8>) -> Option<&'t [u8]> {
    let mut rest = text.strip_prefix(b"\"")?;
    loop {
        let (plain, after) = rest.split_at(memchr2(b'"', b'\\', rest)?);
        out.extend_from_slice(plain);
        match after {
            [b'"', after @ ..] => return Some(after),
            [_, escape, after @ ..] => {
                out.push(match escape {
                    b'n' => b'\n',
                    b'r' => b'\r',
                    b't' => b'\t',
                    b'"' | b'\\' => *escape,
                    _ => return None,
                });
                rest = after;
            }
            _ => return None,
        }
    }
}

/// Appends bytes, which are a string or in Base64.
fn take_bytes<'t>(text: &'t [u8], out: &mut Vec<u8>) -> Option<&'t [u8]> {
    match text.strip_prefix(br#"{"base64":""#) {
        None => take_string(text, out),
        Some(digits) => {
            let end = memchr(b'"', digits)?;
            decode_config_buf(&digits[..end], STANDARD, out).ok()?;
            digits[end + 1..].strip_prefix(b"}")
        }
    }
}

fn take_value<'t>(text: &'t [u8], out: &mut Vec<u8>) -> Option<&'t [u8]> {
    let start = out.len();
    out.extend_from_slice(&NULL);
    if let Some(rest) = text.strip_prefix(b"null") {
        return Some(rest);
    }
    let rest = take_bytes(text, out)?;
    let length = i32::try_from(out.len() - start - NULL.len()).ok()?;
    out[start..start + NULL.len()].copy_from_slice(&length.to_be_bytes());
    Some(rest)
}

fn take_list<'t>(text: &'t [u8], out: &mut Vec<u8>, item: &FieldType) -> Option<&'t [u8]> {
    let (start, mut rest, mut count) = (out.len(), text.strip_prefix(b"[")?, 0_u16);
    out.extend_from_slice(&[0; 2]);
    while !rest.starts_with(b"]") {
        if count > 0 {
            rest = rest.strip_prefix(b",")?;
        }
        rest = item.take(rest, out)?;
        count = count.checked_add(1)?;
    }
    out[start..start + 2].copy_from_slice(&count.to_be_bytes());
    Some(&rest[1..])
}

fn take_object<'t>(text: &'t [u8], out: &mut Vec<u8>, fields: &[FieldLayout]) -> Option<&'t [u8]> {
    let mut rest = text.strip_prefix(b"{")?;
    for (at, field) in fields.iter().enumerate() {
        let key = &field.key.as_bytes()[usize::from(at == 0)..];
        rest = field.part.take(rest.strip_prefix(key)?, out)?;
    }
    rest.strip_prefix(b"}")
}

fn take_number<'t, const N: usize, T: TryFrom<i64>>(
    text: &'t [u8],
    out: &mut Vec<u8>,
    bytes: fn(T) -> [u8; N],
) -> Option<&'t [u8]> {
    let (number, rest) = match text.strip_prefix(b"-") {
        None => number::<i64>(text)?,
        Some(digits) => {
            let (number, rest) = number::<i64>(digits).filter(|(number, _)| *number != 0)?;
            (-number, rest)
        }
    };
    out.extend_from_slice(&bytes(T::try_from(number).ok()?));
    Some(rest)
}

/// A number without a sign, and what follows it.
fn number<T: TryFrom<u64>>(text: &[u8]) -> Option<(T, &[u8])> {
    let count = text.iter().take_while(|it| it.is_ascii_digit()).count();
    let (digits, rest) = text.split_at(count);
    // 19 digits are below the greatest number of 64 bits.
    if count == 0 || count > 19 || (count > 1 && digits[0] == b'0') {
        return None;
    }
    let number = digits.iter().fold(0, |number, digit| 10 * number + u64::from(digit - b'0'));
    Some((T::try_from(number).ok()?, rest))
}
