//! Prints the trace of a connection by the bytes of each direction, the client's messages before the server's:
//!
//!     trace_lines [-w] CLIENT SERVER
//!
//! By libpq's own lines, or with -w by those that show what libpq doesn't.
#![forbid(unsafe_code)]

use lines::trace::{encryption_answer, first_message, message, Style};
use pgmsg::frontend::Message;
use pgmsg::{Decoder, Fault, Next};
use recording::Side;
use std::io::Write;
use std::{env, fs, io, process};

/// Prints the messages of a direction up to a first message that is broken, keeps its requests for encryption, and gives
/// how many bytes are no whole message.
fn put_messages<'b>(
    out: &mut Vec<u8>,
    style: Style,
    side: Side,
    mut bytes: &'b [u8],
    requests: &mut Vec<Message<'b>>,
) -> Result<usize, Fault> {
    let mut decoder = match side {
        Side::Client => Decoder::of_client(),
        Side::Server => Decoder::of_server(),
    };
    while let Next::Frame(frame) = decoder.next(bytes)? {
        bytes = &bytes[frame.bytes.len()..];
        match frame.tag {
            Some(tag) => drop(message(out, style, side, tag, frame.body())),
            None if !first_message(out, style, frame.body()) => return Ok(0),
            None if decoder.expects_first() => requests.push(Message::read(&frame)?),
            None => {}
        }
    }
    Ok(bytes.len())
}

fn put_end(out: &mut Vec<u8>, put: Result<usize, Fault>) -> io::Result<()> {
    match put {
        Ok(0) => Ok(()),
        Ok(rest) => writeln!(out, "rest {rest}"),
        Err(fault) => writeln!(out, "{fault}"),
    }
}

fn main() -> io::Result<()> {
    let words: Vec<_> = env::args().skip(1).collect();
    let (style, client, server) = match &words[..] {
        [client, server] => (Style::AsLibpq, client, server),
        [whole, client, server] if whole == "-w" => (Style::Whole, client, server),
        _ => {
            eprintln!("usage: trace_lines [-w] CLIENT SERVER");
            process::exit(1);
        }
    };
    let (client, server) = (fs::read(client)?, fs::read(server)?);
    let (mut out, mut requests) = (Vec::new(), Vec::new());
    let put = put_messages(&mut out, style, Side::Client, &client, &mut requests);
    put_end(&mut out, put)?;
    let (answers, messages) = server.split_at(requests.len().min(server.len()));
    for (request, &answer) in requests.iter().zip(answers) {
        encryption_answer(&mut out, style, request, answer);
    }
    let put = put_messages(&mut out, style, Side::Server, messages, &mut requests);
    put_end(&mut out, put)?;
    io::stdout().write_all(&out)
}
