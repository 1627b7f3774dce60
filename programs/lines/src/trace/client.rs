//! The parts of a client's messages.

use super::body::{BodyPrinter, LibpqDetail, MessageKind};
use pgmsg::frontend::Message;

/// The length of a key in protocol 3.0, where it is a number. Later keys are any bytes.
const KEY_OF_VERSION_3_0: usize = 4;

pub(super) fn kind(tag: u8) -> Option<MessageKind> {
    match tag {
        b'B' => MessageKind::new("Bind", put_bind),
        b'C' => MessageKind::new("Close", put_target),
        b'D' => MessageKind::new("Describe", put_target),
        b'E' => MessageKind::new("Execute", put_execute),
        b'F' => MessageKind::new("FunctionCall", put_call),
        b'H' => MessageKind::empty("Flush"),
        b'P' => MessageKind::new("Parse", put_parse),
        b'Q' => MessageKind::new("Query", |printer| printer.text()),
        b'S' => MessageKind::empty("Sync"),
        b'X' => MessageKind::empty("Terminate"),
        b'c' => MessageKind::empty("CopyDone"),
        b'd' => MessageKind::copy_data(),
        b'f' => MessageKind::new("CopyFail", |printer| printer.text()),
        b'p' => Some(MessageKind {
            shown: LibpqDetail::Unknown,
            ..MessageKind::empty("PasswordMessage")?
        }),
        _ => None,
    }
}

fn put_bind(printer: &mut BodyPrinter<'_, '_>) {
    printer.text();
    printer.text();
    printer.codes();
    printer.values();
    printer.codes();
}

fn put_target(printer: &mut BodyPrinter<'_, '_>) {
    printer.byte();
    printer.text();
}

fn put_execute(printer: &mut BodyPrinter<'_, '_>) {
    printer.text();
    printer.int32();
}

fn put_call(printer: &mut BodyPrinter<'_, '_>) {
    printer.int32();
    printer.codes();
    printer.values();
    printer.int16();
}

fn put_parse(printer: &mut BodyPrinter<'_, '_>) {
    printer.text();
    printer.text();
    printer.types();
}

/// Prints the name and the parts of a client's first message.
pub(super) fn put_first(printer: &mut BodyPrinter<'_, '_>, first: &Message<'_>) {
    printer.out.extend_from_slice(match first {
        Message::Startup(_) => b"StartupMessage\t",
        Message::CancelRequest(_) => b"CancelRequest\t",
        Message::SslRequest => b"SSLRequest\t",
        _ => b"GSSENCRequest\t",
    });
    printer.int16();
    printer.int16();
    match first {
        Message::Startup(_) => put_settings(printer),
        Message::CancelRequest(_) => put_key(printer),
        _ => {}
    }
}

/// The settings of a Startup, up to the NUL after the last.
fn put_settings(printer: &mut BodyPrinter<'_, '_>) {
    while !matches!(printer.left(), [] | [0, ..]) {
        printer.text();
        printer.text();
    }
    printer.hide_rest();
}

fn put_key(printer: &mut BodyPrinter<'_, '_>) {
    printer.int32();
    match printer.left().len() {
        KEY_OF_VERSION_3_0 => drop(printer.int32()),
        _ => printer.rest(),
    }
}
