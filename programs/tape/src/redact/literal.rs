//! What a string of SQL means.

use std::ops::Range;

/// How a string is quoted.
#[derive(Clone, Copy, Debug, PartialEq, Eq)]
pub enum Quotes {
    /// As `'it''s'`.
    Plain,
    /// As `E'it\'s'`.
    Escapes,
    /// As `U&'\0069t''s'`.
    Unicode,
    /// As `$$it's$$`.
    Dollars,
}

/// The bytes that the inside of a string means, and where each of them comes from.
#[derive(Debug, Default)]
pub struct LiteralValue {
    pub bytes: Vec<u8>,
    /// Where a byte is written, by its place; then where the string ends.
    at: Vec<usize>,
    /// Where the quotes are with which the string goes on after a new line, and what is between them.
    gaps: Vec<Range<usize>>,
}

impl LiteralValue {
    pub fn of(text: &[u8], quotes: Quotes) -> LiteralValue {
        let (mut value, mut at) = (LiteralValue::default(), 0);
        while let Some(rest @ [first, ..]) = text.get(at..) {
            let (means, len) = match (quotes, rest) {
                (Quotes::Dollars, _) => (CharBytes::byte(*first), 1),
                (_, [b'\'', b'\'', ..]) => (CharBytes::byte(b'\''), 2),
                (_, [b'\'', after @ ..]) => {
                    let len = rest.len().min(2 + blank_len(after));
                    value.gaps.push(at..at + len);
                    (CharBytes::default(), len)
                }
                (Quotes::Escapes, [b'\\', escaped @ ..]) => escape(escaped),
                (Quotes::Unicode, [b'\\', escaped @ ..]) => unicode(escaped),
                _ => (CharBytes::byte(*first), 1),
            };
            value.bytes.extend_from_slice(means.bytes());
            value.at.resize(value.bytes.len(), at);
            at += len;
        }
        value.at.push(text.len());
        value
    }

    /// Where the parts of the string are: more than one where it goes on after a new line.
    pub fn parts(&self) -> impl Iterator<Item = Range<usize>> + '_ {
        let starts = std::iter::once(0).chain(self.gaps.iter().map(|it| it.end));
        let ends = self.gaps.iter().map(|it| it.start).chain(self.at.last().copied());
        starts.zip(ends).map(|(start, end)| start..end)
    }

    /// Where some bytes of the meaning are written.
    pub fn written(&self, range: &Range<usize>) -> Range<usize> {
        self.at[range.start]..self.at[range.end]
    }
}

/// The bytes of a character, or one byte.
#[derive(Default)]
struct CharBytes([u8; 4], usize);

impl CharBytes {
    fn byte(byte: u8) -> CharBytes {
        CharBytes([byte, 0, 0, 0], 1)
    }

    fn character(number: u32) -> CharBytes {
        let mut bytes = [0; 4];
        let len = char::from_u32(number).map_or(0, |it| it.encode_utf8(&mut bytes).len());
        CharBytes(bytes, len)
    }

    fn bytes(&self) -> &[u8] {
        &self.0[..self.1]
    }
}

/// What follows a backslash in a string with escapes, and how long the whole is.
fn escape(escaped: &[u8]) -> (CharBytes, usize) {
    let (radix, skipped, most) = match escaped {
        [b'x', ..] => (16, 1, 2),
        [b'u', ..] => (16, 1, 4),
        [b'U', ..] => (16, 1, 8),
        [b'0'..=b'7', ..] => (8, 0, 3),
        _ => (16, 0, 0),
    };
    let (number, len) = number(&escaped[skipped..], radix, most);
    let means = match escaped {
        [b'u' | b'U', ..] if len > 0 => CharBytes::character(number),
        _ if len > 0 => CharBytes::byte(number as u8),
        [b'b', ..] => CharBytes::byte(8),
        [b'f', ..] => CharBytes::byte(12),
        [b'n', ..] => CharBytes::byte(b'\n'),
        [b'r', ..] => CharBytes::byte(b'\r'),
        [b't', ..] => CharBytes::byte(b'\t'),
        [other, ..] => CharBytes::byte(*other),
        [] => CharBytes::default(),
    };
    (means, if len > 0 { 1 + skipped + len } else { 2 })
}

/// The same in a string of Unicode.
fn unicode(escaped: &[u8]) -> (CharBytes, usize) {
    match escaped {
        [b'\\', ..] => (CharBytes::byte(b'\\'), 2),
        [b'+', digits @ ..] => {
            let (number, len) = number(digits, 16, 6);
            (CharBytes::character(number), 2 + len)
        }
        digits => {
            let (number, len) = number(digits, 16, 4);
            (CharBytes::character(number), 1 + len)
        }
    }
}

/// The number that so many digits at most write at the front, and how many they are.
fn number(digits: &[u8], radix: u32, most: usize) -> (u32, usize) {
    let digits = digits.iter().take(most).map_while(|it| char::from(*it).to_digit(radix));
    digits.fold((0, 0), |(number, len), digit| {
        (u32::wrapping_add(u32::wrapping_mul(number, radix), digit), len + 1)
    })
}

/// How long space is at the front, with comments that end with their lines.
pub fn blank_len(text: &[u8]) -> usize {
    let mut len = 0;
    while let Some(rest @ [first, ..]) = text.get(len..) {
        len += match rest {
            [b'-', b'-', ..] => rest.iter().take_while(|it| **it != b'\n').count(),
            _ if first.is_ascii_whitespace() => 1,
            _ => break,
        };
    }
    len
}

#[cfg(test)]
mod tests {
    use super::*;

    #[test]
    fn a_string_means_what_the_server_reads() {
        use Quotes::{Dollars, Escapes, Plain, Unicode};
        let table: [(Quotes, &str, &str); 15] = [
            (Plain, "it''s", "it's"),
            (Plain, r"a\b", r"a\b"),
            (Plain, "a'\n'b", "ab"),
            (Plain, "a' -- it's\n\t'b", "ab"),
            (Dollars, r"it''s\n", r"it''s\n"),
            (Escapes, r"it\'s''", "it's'"),
            (Escapes, r"\x41\101\u0042\U00000043\n\q\\", "AABC\nq\\"),
            (Escapes, "a'\n'\\x62", "ab"),
            (Escapes, "\\", ""),
            (Escapes, r"\x", "x"),
            (Unicode, r"\0061\+000062\\c", r"ab\c"),
            (Unicode, r"\D800", ""),
            (Unicode, "\\00'\n'", "\0"),
            (Plain, "a'", "a"),
            (Plain, "", ""),
        ];
        for (quotes, text, wanted) in table {
            let value = LiteralValue::of(text.as_bytes(), quotes);
            assert_eq!(String::from_utf8_lossy(&value.bytes), wanted, "{text}");
            let written = value.written(&(0..wanted.len()));
            assert_eq!(
                written,
                if wanted.is_empty() { text.len() } else { 0 }..text.len(),
                "{text}"
            );
        }
        let value = LiteralValue::of(b"a'\n'b", Quotes::Plain);
        assert_eq!(value.parts().collect::<Vec<_>>(), [0..1, 4..5]);
        let value = LiteralValue::of(b"PASSWORD ''p''", Quotes::Plain);
        assert_eq!(value.written(&(10..11)), 11..12);
    }
}
