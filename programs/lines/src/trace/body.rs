//! The parts of a message in libpq's notation: each after a space. What would lie outside of the body isn't read, and
//! nothing is printed from there on.

use super::Style;
use crate::escape::{put_escaped, put_text};
use crate::put;

/// How much libpq 15 shows of a kind of message.
#[derive(Clone, Copy, PartialEq, Eq)]
pub(super) enum LibpqDetail {
    Named,
    /// The length alone.
    Dropped,
    /// The tag in place of the name.
    Unknown,
}

/// A kind of message, by its name.
#[derive(Clone, Copy)]
pub(super) struct MessageKind {
    pub name: &'static str,
    /// Prints its parts: `None` where there are none, or where they are secret.
    pub parts: Option<fn(&mut BodyPrinter<'_, '_>)>,
    pub shown: LibpqDetail,
}

impl MessageKind {
    /// A kind that libpq shows.
    pub fn new(name: &'static str, parts: fn(&mut BodyPrinter<'_, '_>)) -> Option<MessageKind> {
        Some(MessageKind { name, parts: Some(parts), shown: LibpqDetail::Named })
    }

    /// A kind without parts.
    pub fn empty(name: &'static str) -> Option<MessageKind> {
        Some(MessageKind { name, parts: None, shown: LibpqDetail::Named })
    }

    /// The data of a COPY.
    pub fn copy_data() -> Option<MessageKind> {
        Some(MessageKind {
            shown: LibpqDetail::Dropped,
            ..MessageKind::new("CopyData", |printer| printer.rest())?
        })
    }
}

/// A body, and how much of it is printed.
pub(super) struct BodyPrinter<'o, 'b> {
    pub out: &'o mut Vec<u8>,
    pub style: Style,
    pub body: &'b [u8],
    pub at: usize,
    /// The next part isn't whole.
    pub is_short: bool,
}

impl<'o, 'b> BodyPrinter<'o, 'b> {
    pub fn new(out: &'o mut Vec<u8>, style: Style, body: &'b [u8]) -> BodyPrinter<'o, 'b> {
        BodyPrinter { out, style, body, at: 0, is_short: false }
    }

    /// What isn't printed yet.
    pub fn left(&self) -> &'b [u8] {
        &self.body[self.at..]
    }

    /// The next bytes, or `None` where there are too few.
    fn next(&mut self, len: usize) -> Option<&'b [u8]> {
        let found = self.left().get(..len).filter(|_| !self.is_short);
        match found {
            Some(_) => self.at += len,
            None => self.is_short = true,
        }
        found
    }

    /// The next bytes of a number.
    fn array<const N: usize>(&mut self) -> Option<[u8; N]> {
        self.next(N)?.try_into().ok()
    }

    /// A byte: itself where it is printable ASCII.
    pub fn byte(&mut self) -> Option<u8> {
        let [byte] = self.array()?;
        self.out.push(b' ');
        put_byte(self.out, byte);
        Some(byte)
    }

    /// A number of two bytes, from 0 to 65535.
    pub fn int16(&mut self) -> u16 {
        let number = self.array().map(u16::from_be_bytes);
        if let Some(number) = number {
            put(self.out, format_args!(" {number}"));
        }
        number.unwrap_or(0)
    }

    /// A number of four bytes, with its sign.
    pub fn int32(&mut self) -> i32 {
        let number = self.array().map(i32::from_be_bytes);
        if let Some(number) = number {
            put(self.out, format_args!(" {number}"));
        }
        number.unwrap_or(0)
    }

    /// A text, each byte of a control character in it but line feeds and tabs by its digits.
    pub fn text(&mut self) {
        let nul = self.left().iter().position(|&byte| byte == 0);
        let text = match nul {
            Some(len) if !self.is_short => &self.left()[..len],
            _ => {
                self.is_short = true;
                return;
            }
        };
        self.at += text.len() + 1;
        self.out.extend_from_slice(b" \"");
        put_text(self.out, text);
        self.out.push(b'"');
    }

    /// So many bytes, each that isn't printable ASCII by its digits.
    pub fn bytes(&mut self, len: usize) {
        if let Some(bytes) = self.next(len) {
            self.out.extend_from_slice(b" '");
            for &byte in bytes {
                put_byte(self.out, byte);
            }
            self.out.push(b'\'');
        }
    }

    /// All that is left, as bytes.
    pub fn rest(&mut self) {
        self.bytes(self.left().len());
    }

    /// Skips what is left, which isn't printed.
    pub fn hide_rest(&mut self) {
        if !self.is_short {
            self.at = self.body.len();
        }
    }

    /// A length and so many bytes, or -1 alone.
    pub fn value(&mut self) {
        if let Ok(len) = usize::try_from(self.int32()) {
            self.bytes_of_value(len);
        }
    }

    /// The bytes of a value whose length was there.
    fn bytes_of_value(&mut self, len: usize) {
        if !self.is_short {
            self.bytes(len);
        }
    }

    /// A count, and so many items.
    pub fn list(&mut self, item: fn(&mut BodyPrinter<'_, '_>)) {
        for _ in 0..self.int16() {
            if self.is_short {
                break;
            }
            item(self);
        }
    }

    /// A count, and so many format codes.
    pub fn codes(&mut self) {
        self.list(|printer| {
            printer.int16();
        });
    }

    /// A count, and so many object ids.
    pub fn types(&mut self) {
        self.list(|printer| {
            printer.int32();
        });
    }

    /// A count, and so many values.
    pub fn values(&mut self) {
        self.list(|printer| printer.value());
    }
}

fn put_byte(out: &mut Vec<u8>, byte: u8) {
    match byte {
        b' '..=b'~' => out.push(byte),
        _ => put_escaped(out, byte),
    }
}
