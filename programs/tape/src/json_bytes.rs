//! Bytes in JSON: a string where they are a text, else an object with their Base64.

use memchr::memchr_iter;
use serde::de::{self, Deserialize, Deserializer, MapAccess, Visitor};
use serde::ser::{Serialize, SerializeMap, Serializer};
use std::borrow::Cow;
use std::fmt;
use std::str;

/// Bytes of a message, borrowed where they can be.
#[derive(Clone, Debug, Default, PartialEq, Eq)]
pub struct JsonBytes<'a>(pub Cow<'a, [u8]>);

impl<'a> From<&'a [u8]> for JsonBytes<'a> {
    fn from(bytes: &'a [u8]) -> JsonBytes<'a> {
        JsonBytes(Cow::Borrowed(bytes))
    }
}

/// Whether a byte is a control character that no text has: one of ASCII other than tab, line feed and carriage return.
fn is_no_text(byte: u8) -> bool {
    byte.is_ascii_control() && !matches!(byte, b'\t' | b'\n' | b'\r')
}

/// Whether bytes have a control character above ASCII, which is one from U+0080 to U+009F.
fn has_high_control(bytes: &[u8]) -> bool {
    memchr_iter(0xc2, bytes).any(|at| bytes.get(at + 1).is_some_and(|it| *it < 0xa0))
}

/// Whether there is a byte like that. All are looked at, which a compiler does many at a time.
pub fn has(bytes: &[u8], is: impl Fn(u8) -> bool) -> bool {
    bytes.iter().fold(false, |found, byte| found | is(*byte))
}

/// Whether bytes are a text of ASCII that JSON has as it is.
fn is_plain(bytes: &[u8]) -> bool {
    !has(bytes, |it| !(b' '..0x7f).contains(&it) || it == b'"' || it == b'\\')
}

/// Appends bytes as JSON has them.
pub fn put_json_bytes(out: &mut Vec<u8>, bytes: &[u8]) {
    if is_plain(bytes) {
        out.push(b'"');
        out.extend_from_slice(bytes);
        out.push(b'"');
    } else {
        // Writing to a vector never fails.
        let _ = serde_json::to_writer(out, &JsonBytes::from(bytes));
    }
}

impl JsonBytes<'_> {
    /// The text, where the bytes are one: UTF-8 without control characters other than those of lines and columns.
    fn as_str(&self) -> Option<&str> {
        match has(&self.0, is_no_text) || has_high_control(&self.0) {
            true => None,
            false => str::from_utf8(&self.0).ok(),
        }
    }
}

impl Serialize for JsonBytes<'_> {
    fn serialize<S: Serializer>(&self, to: S) -> Result<S::Ok, S::Error> {
        if let Some(text) = self.as_str() {
            return to.serialize_str(text);
        }
        let mut map = to.serialize_map(Some(1))?;
        map.serialize_entry("base64", &base64::encode(&self.0))?;
        map.end()
    }
}

impl<'de: 'a, 'a> Deserialize<'de> for JsonBytes<'a> {
    fn deserialize<D: Deserializer<'de>>(from: D) -> Result<JsonBytes<'a>, D::Error> {
        from.deserialize_any(JsonBytesVisitor)
    }
}

struct JsonBytesVisitor;

impl<'de> Visitor<'de> for JsonBytesVisitor {
    type Value = JsonBytes<'de>;

    fn expecting(&self, f: &mut fmt::Formatter<'_>) -> fmt::Result {
        f.write_str("a string or {\"base64\": \"..\"}")
    }

    fn visit_borrowed_str<E>(self, text: &'de str) -> Result<JsonBytes<'de>, E> {
        Ok(JsonBytes(Cow::Borrowed(text.as_bytes())))
    }

    fn visit_str<E>(self, text: &str) -> Result<JsonBytes<'de>, E> {
        Ok(JsonBytes(Cow::Owned(text.as_bytes().to_vec())))
    }

    fn visit_map<M: MapAccess<'de>>(self, mut map: M) -> Result<JsonBytes<'de>, M::Error> {
        match map.next_key::<Cow<'de, str>>()? {
            Some(key) if key == "base64" => {}
            _ => {
                return Err(de::Error::custom(
                    "bytes are a string, or an object with `base64` alone",
                ))
            }
        }
        let digits: Cow<'de, str> = map.next_value()?;
        let bytes = base64::decode(digits.as_bytes())
            .map_err(|why| de::Error::custom(format_args!("no Base64: {why}")))?;
        match map.next_key::<de::IgnoredAny>()? {
            None => Ok(JsonBytes(Cow::Owned(bytes))),
            Some(_) => Err(de::Error::custom("bytes in Base64 have no other field")),
        }
    }
}

#[cfg(test)]
mod tests {
    use super::*;

    #[test]
    fn bytes_are_a_string_where_they_are_a_text_and_come_back() {
        let table: [(&[u8], &str); 12] = [
            (b"", r#""""#),
            (b"a\t\"b\"\r\n", r#""a\t\"b\"\r\n""#),
            ("é".as_bytes(), r#""é""#),
            (b"caf\xe9", r#"{"base64":"Y2Fm6Q=="}"#),
            (b"\0\0\0\x05", r#"{"base64":"AAAABQ=="}"#),
            (b"\x1b[2J", r#"{"base64":"G1sySg=="}"#),
            (b"a\x7f", r#"{"base64":"YX8="}"#),
            ("\u{80}".as_bytes(), r#"{"base64":"woA="}"#),
            ("\u{9f}!".as_bytes(), r#"{"base64":"wp8h"}"#),
            ("\u{e9}\u{9b}2J".as_bytes(), r#"{"base64":"w6nCmzJK"}"#),
            ("\u{a0}\u{c2}\u{a9}~".as_bytes(), "\"\u{a0}\u{c2}\u{a9}~\""),
            (b"\xc2", r#"{"base64":"wg=="}"#),
        ];
        for (bytes, json) in table {
            assert_eq!(serde_json::to_string(&JsonBytes::from(bytes)).unwrap(), json);
            let mut out = Vec::new();
            put_json_bytes(&mut out, bytes);
            assert_eq!(String::from_utf8(out).unwrap(), json);
            assert_eq!(
                serde_json::from_str::<JsonBytes<'_>>(json).unwrap(),
                JsonBytes::from(bytes)
            );
        }
        assert_eq!(
            serde_json::from_str::<JsonBytes<'_>>(r#""\u0000\u00e9""#).unwrap().0,
            &b"\0\xc3\xa9"[..]
        );
    }

    #[test]
    fn other_shapes_are_refused() {
        for wrong in [
            "5",
            "null",
            "[]",
            "{}",
            r#"{"hex":"00"}"#,
            r#"{"base64":"?"}"#,
            r#"{"base64":"","a":1}"#,
        ] {
            assert!(serde_json::from_str::<JsonBytes<'_>>(wrong).is_err(), "{wrong}");
        }
    }
}
