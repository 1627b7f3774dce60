//! JSON as a terminal may get it.

use crate::json_bytes::has;
use serde::Serialize;
use serde_json::ser::{Formatter, Serializer};
use std::io::{self, Write};

/// Escapes the control characters from U+007F to U+009F too, which serde_json lets pass. Bytes that have one are in Base64, so
/// that these are tags, and letters of an error's fields.
struct EscapingFormatter;

impl Formatter for EscapingFormatter {
    fn write_string_fragment<W: ?Sized + Write>(
        &mut self,
        out: &mut W,
        text: &str,
    ) -> io::Result<()> {
        let mut rest = text;
        if has(text.as_bytes(), |it| it >= 0x7f) {
            while let Some((at, control)) = rest.char_indices().find(|(_, it)| it.is_control()) {
                write!(out, "{}\\u{:04x}", &rest[..at], u32::from(control))?;
                rest = &rest[at + control.len_utf8()..];
            }
        }
        out.write_all(rest.as_bytes())
    }
}

/// Appends a value as JSON.
pub fn put_json(out: &mut Vec<u8>, value: &impl Serialize) {
    // Writing to a vector never fails, and each key is a string.
    let _ = value.serialize(&mut Serializer::with_formatter(out, EscapingFormatter));
}

#[cfg(test)]
mod tests {
    use crate::event::RawMessage;
    use crate::line::{self, LinePosition, LineWriter};
    use crate::parse;
    use pgmsg::backend::{self, Field, FieldKind, Other};
    use pgmsg::ByteStr;
    use recording::Side;

    /// The line of a server's message, which gives the same bytes back.
    fn line_of(message: &backend::Message<'_>) -> String {
        let (mut bytes, mut out, mut again) = (Vec::new(), Vec::new(), Vec::new());
        message.write(&mut bytes).unwrap();
        let message = RawMessage { tag: Some(bytes[0]), bytes: (&bytes[..]).into() };
        let (connection, time, side) = (Some(1), Some(0), Some(Side::Server));
        let position = LinePosition { connection, time, side, ..LinePosition::default() };
        line::put(&mut out, position, &LineWriter::default().message(Side::Server, &message));
        let line = String::from_utf8(out).unwrap();
        line::write(&parse::read(&line).unwrap().content, &mut again).unwrap();
        assert_eq!(again, bytes, "{line}");
        line.trim_end().to_owned()
    }

    fn other(tag: u8) -> backend::Message<'static> {
        backend::Message::Other(Other { tag, body: ByteStr(b"?") })
    }

    fn error(letter: u8) -> backend::Message<'static> {
        backend::Message::ErrorResponse([Field::new(FieldKind::Other(letter), "x")].into())
    }

    #[test]
    fn no_line_has_a_control_character() {
        for byte in 1..=u8::MAX {
            for line in [line_of(&other(byte)), line_of(&error(byte))] {
                assert!(!line.chars().any(char::is_control), "{line:?}");
            }
        }
    }

    #[test]
    fn a_control_character_is_escaped_and_others_stand_as_they_are() {
        let table = [(0x1b, "\\u001b"), (0x7f, "\\u007f"), (0x9b, "\\u009b"), (0xe9, "\u{e9}")];
        for (byte, wanted) in table {
            let line = line_of(&other(byte));
            assert!(line.contains(&format!(r#""tag":"{wanted}","body":"?""#)), "{line}");
            let line = line_of(&error(byte));
            assert!(line.contains(&format!(r#""fields":{{"{wanted}":"x"}}"#)), "{line}");
        }
    }
}
