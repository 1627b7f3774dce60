//! The parts of a server's messages.

use super::body::{BodyPrinter, MessageKind};
use super::Style;

pub(super) fn kind(tag: u8) -> Option<MessageKind> {
    match tag {
        b'1' => MessageKind::empty("ParseComplete"),
        b'2' => MessageKind::empty("BindComplete"),
        b'3' => MessageKind::empty("CloseComplete"),
        b'A' => MessageKind::new("NotificationResponse", put_notification),
        b'C' => MessageKind::new("CommandComplete", |printer| printer.text()),
        b'D' => MessageKind::new("DataRow", |printer| printer.values()),
        b'E' => MessageKind::new("ErrorResponse", put_fields),
        b'G' => MessageKind::new("CopyInResponse", put_copy_response),
        b'H' => MessageKind::new("CopyOutResponse", put_copy_response),
        b'I' => MessageKind::empty("EmptyQueryResponse"),
        b'K' => MessageKind::new("BackendKeyData", put_key_data),
        b'N' => MessageKind::new("NoticeResponse", put_fields),
        b'R' => MessageKind::new("Authentication", put_authentication),
        b'S' => MessageKind::new("ParameterStatus", put_setting),
        b'T' => MessageKind::new("RowDescription", put_columns),
        b'V' => MessageKind::new("FunctionCallResponse", |printer| printer.value()),
        b'W' => MessageKind::new("CopyBothResponse", put_copy_response),
        b'Z' => MessageKind::new("ReadyForQuery", put_status),
        b'c' => MessageKind::empty("CopyDone"),
        b'd' => MessageKind::copy_data(),
        b'n' => MessageKind::empty("NoData"),
        b's' => MessageKind::empty("PortalSuspended"),
        b't' => MessageKind::new("ParameterDescription", |printer| printer.types()),
        b'v' => MessageKind::new("NegotiateProtocolVersion", put_version),
        _ => None,
    }
}

/// The method alone: what follows it may be part of a proof of a password.
fn put_authentication(printer: &mut BodyPrinter<'_, '_>) {
    printer.int32();
    if printer.style == Style::Whole {
        printer.hide_rest();
    }
}

fn put_key_data(printer: &mut BodyPrinter<'_, '_>) {
    printer.int32();
    printer.int32();
}

fn put_copy_response(printer: &mut BodyPrinter<'_, '_>) {
    printer.byte();
    printer.codes();
}

/// The fields of an error or a notice, up to the NUL after the last.
fn put_fields(printer: &mut BodyPrinter<'_, '_>) {
    while printer.byte().is_some_and(|letter| letter != 0) {
        printer.text();
    }
}

fn put_notification(printer: &mut BodyPrinter<'_, '_>) {
    printer.int32();
    printer.text();
    printer.text();
}

fn put_setting(printer: &mut BodyPrinter<'_, '_>) {
    printer.text();
    printer.text();
}

fn put_columns(printer: &mut BodyPrinter<'_, '_>) {
    printer.list(|column| {
        column.text();
        column.int32();
        column.int16();
        column.int32();
        column.int16();
        column.int32();
        column.int16();
    });
}

fn put_status(printer: &mut BodyPrinter<'_, '_>) {
    printer.byte();
}

/// The version and the number of options that the server doesn't know. libpq shows no names.
fn put_version(printer: &mut BodyPrinter<'_, '_>) {
    printer.int32();
    let count = printer.int32();
    for _ in 0..count {
        if printer.style != Style::Whole || printer.is_short {
            break;
        }
        printer.text();
    }
}
