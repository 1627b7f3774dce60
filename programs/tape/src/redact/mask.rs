//! What stands in the place of a secret: of a value, something as long and of the same type; of a password, always the same.

use pgmsg::Format;
use std::borrow::Cow;

/// Object ids of types whose binary form is text.
const TEXTS: [u32; 8] = [18, 19, 25, 114, 142, 1042, 1043, 705];
const BOOL: u32 = 16;
const BYTEA: u32 = 17;
const UUID: u32 = 2950;
const JSONB: u32 = 3802;
const NUMERIC: u32 = 1700;
/// How long a date is without a time of day.
const DATE_LEN: usize = 10;
/// Where a UUID has hyphens, and how long it is.
const HYPHENS: [usize; 4] = [8, 13, 18, 23];
const UUID_LEN: usize = 36;

/// What stands in the place of a password, which tells nothing about it.
pub const WHOLE: &[u8] = b"xxxxxxxx";

/// How a part of a message is masked.
#[derive(Clone, Debug, PartialEq, Eq)]
pub enum Mask {
    /// As a text, by what it looks like.
    Text,
    /// As a password.
    Whole,
    /// As so many bytes 0.
    Zeros,
    /// As a value of a type in a format.
    Value { type_id: u32, format: Format },
    /// As these bytes.
    Bytes(Vec<u8>),
}

impl Mask {
    /// Masks bytes, by a mask that keeps their length.
    pub fn put(&self, bytes: &mut [u8]) {
        match self {
            Mask::Text => text(bytes),
            Mask::Zeros => bytes.fill(0),
            Mask::Value { type_id, format: Format::TEXT } => text_of(*type_id, bytes),
            Mask::Value { type_id, .. } => binary(*type_id, bytes),
            Mask::Whole | Mask::Bytes(_) => {}
        }
    }

    /// What stands in the place of bytes by another mask, which may have another length.
    pub fn other(&self) -> Option<&[u8]> {
        match self {
            Mask::Whole => Some(WHOLE),
            Mask::Bytes(with) => Some(with),
            _ => None,
        }
    }

    /// What bytes have in other places of a recording too, where they are masked so: what they say as a text, or a value
    /// that is the same in binary form wherever it stands.
    pub fn secret<'b>(&self, bytes: &'b [u8]) -> Option<Cow<'b, [u8]>> {
        match (self, bytes) {
            (Mask::Whole | Mask::Text, _) => Some(bytes.into()),
            (Mask::Value { type_id: BYTEA, format: Format::TEXT }, [b'\\', b'x', digits @ ..]) => {
                hex::decode(digits).ok().map(Cow::from)
            }
            (Mask::Value { format: Format::TEXT, .. }, _) => Some(bytes.into()),
            (Mask::Value { type_id: JSONB, .. }, [_, json @ ..]) => Some(json.into()),
            (Mask::Value { type_id, .. }, _) => {
                let has_form = TEXTS.contains(type_id) || matches!(*type_id, BYTEA | UUID);
                Some(bytes.into()).filter(|_| has_form || looks_like_text(bytes))
            }
            _ => None,
        }
    }
}

/// Masks a value that is text, of a type whose values look like others.
fn text_of(type_id: u32, bytes: &mut [u8]) {
    match (type_id, &mut *bytes) {
        (BOOL, [one]) => *one = b't',
        (BYTEA, [b'\\', b'x', digits @ ..]) => digits.fill(b'0'),
        _ => text(bytes),
    }
}

/// Masks a value in the binary form of its type: 0, or a text.
fn binary(type_id: u32, bytes: &mut [u8]) {
    let is_text = TEXTS.contains(&type_id) || looks_like_text(bytes);
    match (type_id, bytes) {
        (BYTEA, bytes) => bytes.fill(0),
        (NUMERIC, [_, _, _, _, _, _, _, _, digits @ ..]) => digits.fill(0),
        (JSONB, [_, json @ ..]) => text(json),
        (_, bytes) if is_text => text(bytes),
        (_, bytes) => bytes.fill(0),
    }
}

/// Whether bytes of a type that isn't known are a text: up to eight may be a number.
fn looks_like_text(bytes: &[u8]) -> bool {
    bytes.len() > 8
        && std::str::from_utf8(bytes).is_ok_and(|text| !text.chars().any(char::is_control))
}

/// Masks a text, by what it looks like.
pub fn text(bytes: &mut [u8]) {
    match () {
        _ if is_date(bytes) => date(bytes),
        _ if is_number(bytes) => number(bytes),
        _ if is_uuid(bytes) => uuid(bytes),
        _ if matches!(bytes.first(), Some(b'{' | b'[')) && is_json(bytes) => json(bytes),
        _ => letters(bytes),
    }
}

/// Whether a text is a date, alone or with a time of day and an offset. What has a word, such as BC or the name of a time
/// zone, is none: its letters are masked too.
fn is_date(bytes: &[u8]) -> bool {
    let is_digit = |at: usize| bytes.get(at).is_some_and(u8::is_ascii_digit);
    let has_digits = [0, 1, 2, 3, 5, 6, 8, 9].into_iter().all(is_digit);
    let time = bytes.get(DATE_LEN..).unwrap_or_default();
    let time = time.strip_prefix(b"T").unwrap_or(time);
    let time = time.strip_suffix(b"Z").unwrap_or(time);
    let has_time = time.iter().all(|it| it.is_ascii_digit() || b" :.+-".contains(it));
    has_digits && bytes.get(4) == Some(&b'-') && bytes.get(7) == Some(&b'-') && has_time
}

/// A date becomes the first of 2000, and a time of day midnight.
fn date(bytes: &mut [u8]) {
    zeros(bytes);
    for (at, digit) in [(0, b'2'), (6, b'1'), (9, b'1')] {
        bytes[at] = digit;
    }
}

fn is_number(bytes: &[u8]) -> bool {
    let digits = bytes.strip_prefix(b"-").unwrap_or(bytes);
    digits.first().is_some_and(u8::is_ascii_digit)
        && digits.iter().all(|it| it.is_ascii_digit() || b".eE+-".contains(it))
}

fn is_uuid(bytes: &[u8]) -> bool {
    let is_right = |(at, it): (usize, &u8)| match HYPHENS.contains(&at) {
        true => *it == b'-',
        false => it.is_ascii_hexdigit(),
    };
    bytes.len() == UUID_LEN && bytes.iter().enumerate().all(is_right)
}

/// A UUID becomes the one of zeros.
fn uuid(bytes: &mut [u8]) {
    bytes.iter_mut().filter(|it| **it != b'-').for_each(|it| *it = b'0');
}

/// A number becomes a 1 with zeros.
fn number(bytes: &mut [u8]) {
    let had = bytes.iter().position(u8::is_ascii_digit);
    zeros(bytes);
    if let Some(first) = had {
        bytes[first] = b'1';
    }
}

fn zeros(bytes: &mut [u8]) {
    bytes.iter_mut().filter(|it| it.is_ascii_digit()).for_each(|it| *it = b'0');
}

fn is_json(bytes: &[u8]) -> bool {
    serde_json::from_slice::<serde::de::IgnoredAny>(bytes).is_ok()
}

/// Of JSON the strings and numbers are masked, and the names of fields stay.
fn json(bytes: &mut [u8]) {
    let mut at = 0;
    while at < bytes.len() {
        let end = match bytes[at] {
            b'"' => end_of_string(bytes, at + 1),
            it if it.is_ascii_digit() => {
                at + bytes[at..].iter().take_while(|it| it.is_ascii_digit()).count()
            }
            _ => at + 1,
        };
        match bytes[at] {
            b'"' if is_name(bytes, end) => {}
            b'"' => string(&mut bytes[at + 1..end]),
            it if it.is_ascii_digit() => number(&mut bytes[at..end]),
            _ => {}
        }
        at = if bytes[at] == b'"' { end + 1 } else { end };
    }
}

/// Whether the string that ends there is the name of a field.
fn is_name(bytes: &[u8], end: usize) -> bool {
    let after = bytes.iter().skip(end + 1).find(|it| !it.is_ascii_whitespace());
    after == Some(&b':')
}

/// Where a string of JSON ends.
fn end_of_string(bytes: &[u8], start: usize) -> usize {
    let mut at = start;
    while at < bytes.len() && bytes[at] != b'"' {
        at += 1 + usize::from(bytes[at] == b'\\');
    }
    at.min(bytes.len())
}

/// Masks the inside of a string, whose escapes stay escapes.
fn string(bytes: &mut [u8]) {
    let mut at = 0;
    while at < bytes.len() {
        let end = at + bytes[at..].iter().position(|it| *it == b'\\').unwrap_or(bytes.len() - at);
        letters(&mut bytes[at..end]);
        at = end;
        match bytes.get_mut(at..at + 6) {
            Some([_, b'u', digits @ ..]) => {
                digits.copy_from_slice(b"0078");
                at += 6;
            }
            _ => at += 2,
        }
    }
}

/// Of a text each letter becomes an x, and each digit a 0; what parts words stays.
fn letters(bytes: &mut [u8]) {
    let mut at = 0;
    while at < bytes.len() {
        let len = character(&bytes[at..]);
        match &mut bytes[at..at + len] {
            [it] => *it = letter(*it),
            [a, b] => (*a, *b) = (0xc3, 0xb8),
            [a, b, c] => (*a, *b, *c) = (0xe3, 0x81, 0x82),
            long => long.copy_from_slice("\u{1d431}".as_bytes()),
        }
        at += len;
    }
}

fn letter(byte: u8) -> u8 {
    match byte {
        b'A'..=b'Z' => b'X',
        b'a'..=b'z' | 0x80.. => b'x',
        b'0'..=b'9' => b'0',
        _ => byte,
    }
}

/// How many bytes the character at the front has in UTF-8, 1 where it is none.
fn character(bytes: &[u8]) -> usize {
    if bytes[0] < 0x80 {
        return 1;
    }
    let most = bytes.len().min(4);
    (2..=most)
        .find(|len| std::str::from_utf8(&bytes[..*len]).is_ok_and(|text| text.chars().count() == 1))
        .unwrap_or(1)
}

#[cfg(test)]
mod tests {
    use super::*;

    fn masked(mask: Mask, bytes: &[u8]) -> Vec<u8> {
        let mut bytes = bytes.to_vec();
        mask.put(&mut bytes);
        bytes
    }

    #[test]
    fn a_text_stays_of_its_length_and_its_kind() {
        let table: [(&str, &str); 23] = [
            ("", ""),
            ("Ann.Lee@example.org", "Xxx.Xxx@xxxxxxx.xxx"),
            ("+49 (30) 1234-5", "+00 (00) 0000-0"),
            ("1971-03-21", "2000-01-01"),
            ("1971-03-21 13:14:15.123456+02", "2000-01-01 00:00:00.000000+00"),
            ("1971-03-21T13:14:15Z", "2000-01-01T00:00:00Z"),
            ("1971-03-21 13:14:15-03:30", "2000-01-01 00:00:00-00:00"),
            ("1971-03-21 Ann Lee, 41", "0000-00-00 Xxx Xxx, 00"),
            ("1971-03-21T13:14:15 Ann", "0000-00-00X00:00:00 Xxx"),
            ("1971-03-21 T. Z", "0000-00-00 X. X"),
            ("1971-03-21\u{e9}", "0000-00-00\u{f8}"),
            ("0044-03-15 BC", "0000-00-00 XX"),
            ("1971-03-21 13:14:15 CET", "0000-00-00 00:00:00 XXX"),
            ("2147483647", "1000000000"),
            ("-12.50", "-10.00"),
            ("7", "1"),
            ("1e-5", "1e-0"),
            ("Jos\u{e9} \u{65e5}\u{672c} \u{1f600}", "Xxx\u{f8} \u{3042}\u{3042} \u{1d431}"),
            (
                r#"{"name": "Ann\n\u00e9", "age": 41, "ok": true}"#,
                r#"{"name": "Xxx\n\u0078", "age": 10, "ok": true}"#,
            ),
            ("{a,NULL}", "{x,XXXX}"),
            ("550e8400-e29b-41d4-a716-446655440000", "00000000-0000-0000-0000-000000000000"),
            ("[1, -20]", "[1, -10]"),
            ("2001", "1000"),
        ];
        for (text, wanted) in table {
            let value = Mask::Value { type_id: 25, format: Format::TEXT };
            assert_eq!(masked(Mask::Text, text.as_bytes()), wanted.as_bytes(), "{text}");
            assert_eq!(masked(value, text.as_bytes()), wanted.as_bytes(), "{text}");
        }
        assert_eq!(masked(Mask::Text, b"caf\xe9 1"), b"xxxx 0");
    }

    #[test]
    fn a_value_stays_one_of_its_type() {
        let table: [(u32, i16, &[u8], &[u8]); 10] = [
            (16, 0, b"f", b"t"),
            (17, 0, b"\\xdeadbeef", b"\\x00000000"),
            (16, 1, b"\x01", b"\0"),
            (23, 1, b"\0\0\x01\x02", b"\0\0\0\0"),
            (25, 1, b"Ann", b"Xxx"),
            (3802, 1, b"\x01[41]", b"\x01[10]"),
            (1700, 1, b"\0\x01\0\0\0\0\0\0\0\x29", b"\0\x01\0\0\0\0\0\0\0\0"),
            (17, 1, b"secret bytes", &[0; 12]),
            (9999, 1, b"long enough", b"xxxx xxxxxx"),
            (2950, 1, &[7; 16], &[0; 16]),
        ];
        for (type_id, format, bytes, wanted) in table {
            let value = Mask::Value { type_id, format: Format(format) };
            assert_eq!(masked(value, bytes), wanted, "{type_id}");
        }
        assert_eq!(masked(Mask::Zeros, b"\x01a"), b"\0\0");
    }

    #[test]
    fn broken_json_and_cut_characters_are_masked_as_letters() {
        for bytes in
            [&b"{\"a\\"[..], b"[\"\\u00", b"\xe3\x81", b"\xf0\x9f\x98", b"{", b"[1", b"\"\\"]
        {
            let mut json_like = bytes.to_vec();
            json(&mut json_like);
            assert_eq!(masked(Mask::Text, bytes).len(), bytes.len());
        }
    }
}
