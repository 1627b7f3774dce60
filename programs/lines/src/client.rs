//! A client's message as `pg_tool server stream` prints it.

use crate::{put, put_bytes, put_digits};
use pgmsg::frontend::{Bind, FunctionCall, Message, Parse, Settings, Target};
use pgmsg::{Format, Frame, Value};

/// Adds the line of a client's message, or of its fault.
pub fn client_line(out: &mut Vec<u8>, frame: &Frame<'_>) {
    match Message::read(frame) {
        Ok(message) => put_message(out, &message),
        Err(fault) => put(out, format_args!("{fault}")),
    }
    out.push(b'\n');
}

/// Adds the name of a message, and its fields.
fn put_message(out: &mut Vec<u8>, message: &Message<'_>) {
    out.extend(message.name().bytes().map(|byte| byte.to_ascii_lowercase()));
    match message {
        Message::Startup(startup) => {
            put(out, format_args!(" 3.{}", startup.minor));
            put_settings(out, &startup.settings);
        }
        Message::CancelRequest(cancel) => {
            put(out, format_args!(" {}", cancel.process_id));
            put_span(out, cancel.secret_key.0);
        }
        Message::Bind(bind) => put_bind(out, bind),
        Message::Close(target) | Message::Describe(target) => put_target(out, target),
        Message::CopyData(bytes) | Message::CopyFail(bytes) | Message::Query(bytes) => {
            put_span(out, bytes)
        }
        Message::Password(password) => put_span(out, password.0),
        Message::Execute(execute) => {
            put_span(out, &execute.portal);
            // The protocol has a number with a sign, of which those below 1 are no limit.
            put(out, format_args!(" {}", execute.max_rows as i32));
        }
        Message::FunctionCall(call) => put_call(out, call),
        Message::Parse(parse) => put_parse(out, parse),
        _ => {}
    }
}

/// Adds a space, and bytes in digits.
fn put_span(out: &mut Vec<u8>, bytes: &[u8]) {
    out.push(b' ');
    put_bytes(out, bytes);
}

/// Adds a space, and items with commas between them, or `-` where there are none.
fn put_items<T>(out: &mut Vec<u8>, items: &[T], item: impl Fn(&mut Vec<u8>, &T)) {
    for (at, each) in items.iter().enumerate() {
        out.push(if at == 0 { b' ' } else { b',' });
        item(out, each);
    }
    if items.is_empty() {
        out.extend_from_slice(b" -");
    }
}

fn put_formats(out: &mut Vec<u8>, formats: &[Format]) {
    put_items(out, formats, |out, format| put(out, format_args!("{}", format.0)));
}

fn put_values(out: &mut Vec<u8>, values: &[Value<'_>]) {
    put_items(out, values, |out, value| match value.bytes() {
        None => out.extend_from_slice(b"null"),
        Some(value) => {
            out.push(b'x');
            put_digits(out, value);
        }
    });
}

fn put_settings(out: &mut Vec<u8>, settings: &Settings<'_>) {
    put_items(out, settings, |out, setting| {
        put_bytes(out, &setting.name);
        out.push(b'=');
        put_bytes(out, &setting.value);
    });
}

fn put_bind(out: &mut Vec<u8>, bind: &Bind<'_>) {
    put_span(out, &bind.portal);
    put_span(out, &bind.statement);
    put_formats(out, &bind.formats);
    put_values(out, &bind.values);
    put_formats(out, &bind.result_formats);
}

fn put_target(out: &mut Vec<u8>, target: &Target<'_>) {
    out.extend_from_slice(match target {
        Target::Statement(_) => b" S",
        Target::Portal(_) => b" P",
    });
    put_span(out, &target.name());
}

fn put_call(out: &mut Vec<u8>, call: &FunctionCall<'_>) {
    put(out, format_args!(" {}", call.object_id));
    put_formats(out, &call.formats);
    put_values(out, &call.arguments);
    put(out, format_args!(" {}", call.result_format.0));
}

fn put_parse(out: &mut Vec<u8>, parse: &Parse<'_>) {
    put_span(out, &parse.statement);
    put_span(out, &parse.query);
    put_items(out, &parse.types, |out, id| put(out, format_args!("{id}")));
}
