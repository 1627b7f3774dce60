//! Control characters in the text of others, which a terminal would obey.

use std::str;

/// Whether a terminal would obey a character: a control character, one that ends a line, or one that has the text after it
/// run from the right to the left, or back.
pub fn is_obeyed(it: char) -> bool {
    let turns = matches!(it, '\u{61c}' | '\u{200e}' | '\u{200f}' | '\u{202a}'..='\u{202e}' | '\u{2066}'..='\u{2069}');
    it.is_control() || turns || matches!(it, '\u{2028}' | '\u{2029}')
}

/// How many bytes of such a character are at the front of a text. Those have three at most in UTF-8.
fn obeyed(text: &[u8]) -> usize {
    let len = match text[0] {
        0..=0x7f => 1,
        0xc0..=0xdf => 2,
        _ => 3,
    };
    let first =
        text.get(..len).and_then(|it| str::from_utf8(it).ok()).and_then(|it| it.chars().next());
    first.filter(|it| is_obeyed(*it)).map_or(0, char::len_utf8)
}

/// Whether the byte at a place of a text is of such a character: of ASCII, or in UTF-8.
pub fn is_control(text: &[u8], at: usize) -> bool {
    match text[at].is_ascii() {
        true => text[at].is_ascii_control(),
        false => (0..3).any(|before| before <= at && obeyed(&text[at - before..]) > before),
    }
}

/// Adds a byte by `\x` and two hexadecimal digits.
pub(crate) fn put_escaped(out: &mut Vec<u8>, byte: u8) {
    crate::put(out, format_args!("\\x{byte:02x}"));
}

/// Adds a text, each byte of a control character other than line feed and tab by its digits.
pub(crate) fn put_text(out: &mut Vec<u8>, text: &[u8]) {
    let is_hidden = |at| is_control(text, at) && !matches!(text[at], b'\n' | b'\t');
    for (at, &byte) in text.iter().enumerate() {
        match is_hidden(at) {
            true => put_escaped(out, byte),
            false => out.push(byte),
        }
    }
}

/// The text of a peer for a terminal: each byte of a control character, or of no UTF-8, by its digits.
pub fn escape(text: &[u8]) -> String {
    let mut out = Vec::with_capacity(text.len());
    for (at, &byte) in text.iter().enumerate() {
        match is_control(text, at) {
            true => put_escaped(&mut out, byte),
            false => out.push(byte),
        }
    }
    String::from_utf8_lossy(&out).into_owned()
}

#[cfg(test)]
mod tests {
    use super::*;

    #[test]
    fn control_characters_are_escaped_in_ascii_and_above() {
        assert_eq!(escape(b"a\x1b[2J\x07\r\n\x7f"), r"a\x1b[2J\x07\x0d\x0a\x7f");
        assert_eq!(escape("\u{9b}2J \u{a0}é".as_bytes()), "\\xc2\\x9b2J \u{a0}é");
        assert_eq!(escape(b"\xc2"), "\u{fffd}");
    }

    #[test]
    fn what_turns_a_text_or_ends_a_line_is_escaped() {
        for it in [
            '\u{61c}', '\u{200e}', '\u{200f}', '\u{2028}', '\u{2029}', '\u{202a}', '\u{202e}',
            '\u{2066}', '\u{2069}',
        ] {
            let mut bytes = [0; 4];
            let digits: String =
                it.encode_utf8(&mut bytes).bytes().map(|it| format!("\\x{it:02x}")).collect();
            assert_eq!(escape(format!("é{it}€{it}").as_bytes()), format!("é{digits}€{digits}"));
        }
        let others = "\u{200d}\u{2010}\u{202f}\u{206a}€😀";
        assert_eq!(escape(others.as_bytes()), others);
        assert_eq!(escape(b"\xe2\x80"), "\u{fffd}");
    }
}
