//! Lines of libpq's trace, of messages of both sides: what PQtrace of PostgreSQL 15 writes with
//! PQTRACE_SUPPRESS_TIMESTAMPS, but for control characters of texts. libpq prints them as they are, and a terminal
//! obeys them; here they are escaped as in values.

mod body;
mod client;
mod server;

use crate::put;
use body::{BodyPrinter, LibpqDetail, MessageKind};
use pgmsg::frontend::Message;
use pgmsg::{backend, Fault, Refusal};
use recording::Side;

/// The length of a length field, which counts itself.
const LENGTH_FIELD: usize = 4;

/// How those messages are printed of which libpq shows little: first messages, the data of a COPY, passwords.
#[derive(Clone, Copy, Debug, PartialEq, Eq)]
pub enum Style {
    /// As libpq 15 does: their lengths, or their tags.
    AsLibpq,
    /// By their names, with the settings, the keys and the data.
    Whole,
}

impl Style {
    fn shows(self, kind: &MessageKind) -> bool {
        self == Style::Whole || kind.shown == LibpqDetail::Named
    }
}

/// Adds the line of a message with a tag: its side, its length without its tag, its name and its parts. Line feeds and
/// tabs of a text are as they are, so a text may end the line. Where something follows the last part, the next line says
/// how many bytes were printed, and how many there are. Passwords and what follows the method of an Authentication are
/// never printed.
///
/// A body that is broken is printed up to the part that can't be read, and then why, after ` broken: `. The answer is
/// whether the body is whole.
pub fn message(out: &mut Vec<u8>, style: Style, side: Side, tag: u8, body: &[u8]) -> bool {
    begin_line(out, side, body.len() + LENGTH_FIELD);
    let kind = kind_of(side, tag);
    let parts = kind.and_then(|kind| kind.parts.filter(|_| style.shows(&kind)));
    put_name(out, style, kind, tag, parts.is_some());
    let mut printer = BodyPrinter::new(out, style, body);
    match (parts, kind) {
        (Some(parts), _) => parts(&mut printer),
        (None, Some(kind)) if style.shows(&kind) && kind.shown == LibpqDetail::Unknown => {
            printer.hide_rest()
        }
        _ => {}
    }
    match is_whole(side, tag, body) {
        Ok(()) => end_line(&mut printer),
        Err(fault) => end_refused(out, &fault),
    }
}

/// Adds the line of a client's first message, or of the one after a request for encryption. The answer is as that of
/// `message`.
pub fn first_message(out: &mut Vec<u8>, style: Style, body: &[u8]) -> bool {
    let length = body.len() + LENGTH_FIELD;
    begin_line(out, Side::Client, length);
    let first = Message::read_body(None, body);
    let mut printer = BodyPrinter::new(out, style, body);
    match &first {
        Ok(first) if style == Style::Whole => client::put_first(&mut printer, first),
        _ => {
            put(printer.out, format_args!("Unknown message: length is {length}"));
            printer.hide_rest();
        }
    }
    match first {
        Ok(_) => end_line(&mut printer),
        Err(fault) => end_refused(out, &fault),
    }
}

/// Adds the line of a message whose body isn't there, by its tag and the length that its length field says. The line of a
/// password is that of `message`; other lines end with the name.
pub fn left_out(out: &mut Vec<u8>, style: Style, side: Side, tag: u8, length: u32) {
    begin_line(out, side, length as usize);
    put_name(out, style, kind_of(side, tag), tag, false);
    out.push(b'\n');
    if style == Style::AsLibpq && side == Side::Client && tag == b'p' {
        put_mismatch(out, LENGTH_FIELD, length as usize);
    }
}

/// Adds the line of the byte by which a server answers a request for encryption. libpq 15 prints none.
pub fn encryption_answer(out: &mut Vec<u8>, style: Style, request: &Message<'_>, answer: u8) {
    if style == Style::AsLibpq {
        return;
    }
    let name = match request {
        Message::SslRequest => "SSLResponse",
        _ => "GSSENCResponse",
    };
    put(out, format_args!("B\t1\t{name}\t"));
    BodyPrinter::new(out, style, &[answer]).byte();
    out.push(b'\n');
}

/// The kind of a side's messages of a tag.
fn kind_of(side: Side, tag: u8) -> Option<MessageKind> {
    match side {
        Side::Client => client::kind(tag),
        Side::Server => server::kind(tag),
    }
}

/// The name of a server's message.
pub fn server_name(tag: u8) -> Option<&'static str> {
    server::kind(tag).map(|kind| kind.name)
}

fn begin_line(out: &mut Vec<u8>, side: Side, length: usize) {
    let letter = match side {
        Side::Client => 'F',
        Side::Server => 'B',
    };
    put(out, format_args!("{letter}\t{length}\t"));
}

/// Adds the name of a message with a tag, and a tab where parts follow.
fn put_name(out: &mut Vec<u8>, style: Style, kind: Option<MessageKind>, tag: u8, has_parts: bool) {
    match kind {
        Some(kind) if style.shows(&kind) => {
            let tab = if has_parts { "\t" } else { "" };
            put(out, format_args!("{}{tab}", kind.name));
        }
        Some(kind) if kind.shown == LibpqDetail::Dropped => {}
        _ => put(out, format_args!("Unknown message: {tag:02x}")),
    }
}

/// Whether a message is whole. Bytes that follow its last part are no fault, nor is a tag that the library doesn't know.
fn is_whole(side: Side, tag: u8, body: &[u8]) -> Result<(), Fault> {
    let read = match side {
        Side::Client => Message::read_body(Some(tag), body).map(drop),
        Side::Server => backend::end(tag, body).map(drop),
    };
    match read {
        Err(fault)
            if !matches!(fault.refusal, Refusal::TrailingBytes | Refusal::UnknownMessageType) =>
        {
            Err(fault)
        }
        _ => Ok(()),
    }
}

fn put_mismatch(out: &mut Vec<u8>, consumed: usize, expected: usize) {
    put(out, format_args!("mismatched message length: consumed {consumed}, expected {expected}\n"));
}

/// Ends the line of a body that the library refuses.
fn end_refused(out: &mut Vec<u8>, fault: &Fault) -> bool {
    put(out, format_args!(" broken: {fault}\n"));
    false
}

/// Ends a line, and adds how much of the body follows the last part.
fn end_line(printer: &mut BodyPrinter<'_, '_>) -> bool {
    let (at, len) = (printer.at, printer.body.len());
    if printer.is_short {
        put(printer.out, format_args!(" broken: a part is cut off after offset {at}\n"));
        return false;
    }
    printer.out.push(b'\n');
    if at < len {
        put_mismatch(printer.out, at + LENGTH_FIELD, len + LENGTH_FIELD);
    }
    true
}
