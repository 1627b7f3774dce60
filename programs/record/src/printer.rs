//! What passes, or what is recorded, as lines.

use crate::framer::decoder_of;
use crate::options::LineFormat;
use lines::trace;
use pgmsg::{Decoder, Frame, Next};
use recording::{RecordKind, Side};
use std::collections::BTreeMap;
use std::fmt::Display;
use std::io::Write;

/// The longest message that is shown, and the most bytes that are held of all messages which aren't whole.
const HELD_MOST: usize = 64 << 20;
/// So many bytes of a message are held whatever is held of others.
const HELD_LEAST: usize = 64 << 10;

/// Prints the lines of connections.
pub struct Printer {
    format: LineFormat,
    /// The number of the connection that is shown, where not all are.
    only: Option<u32>,
    shows_numbers: bool,
    all: BTreeMap<u32, [PrintState; 2]>,
    out: PrinterOutput,
}

/// Where lines are added.
struct PrinterOutput {
    bytes: Vec<u8>,
    /// What was to be said on standard error.
    notes: Vec<String>,
    /// How many bytes all directions hold.
    held: usize,
}

/// How far a direction of a connection is printed.
struct PrintState {
    side: Side,
    decoder: Decoder,
    /// No message begins as the bytes go on.
    is_over: bool,
    /// How much comes of a message that is too long to be shown, and how much of it came.
    left: usize,
    skipped: usize,
    /// Those of the message that isn't whole.
    bytes: Vec<u8>,
}

impl Printer {
    pub fn new(format: LineFormat, only: Option<u32>, shows_numbers: bool) -> Printer {
        Printer {
            format,
            only,
            shows_numbers,
            all: BTreeMap::new(),
            out: PrinterOutput { bytes: Vec::new(), notes: Vec::new(), held: 0 },
        }
    }

    /// Adds the lines of messages that are whole with a record.
    pub fn take(&mut self, number: u32, kind: RecordKind, content: &[u8]) {
        if self.only.is_some_and(|only| only != number) {
            return;
        }
        let at = |side| if side == Side::Client { 0 } else { 1 };
        let lines =
            LinePrinter { format: self.format, prefix: self.shows_numbers.then_some(number) };
        match (kind, self.all.get_mut(&number)) {
            (RecordKind::Opened, _) => {
                let both = [PrintState::new(Side::Client), PrintState::new(Side::Server)];
                self.all.insert(number, both);
            }
            (RecordKind::Bytes(side), Some(both)) => {
                lines.take(&mut both[at(side)], content, &mut self.out)
            }
            (RecordKind::LeftOut(side), Some(_)) => lines.left_out(side, content, &mut self.out),
            (RecordKind::Encrypted, Some(_)) => {
                let words = format!("connection {number} is encrypted from here on");
                self.out.notes.push(words);
            }
            (RecordKind::Closed, Some(both)) => {
                both.iter().for_each(|state| lines.end(state, &mut self.out));
                self.out.held -= both.iter().map(|state| state.bytes.len()).sum::<usize>();
                self.all.remove(&number);
            }
            (_, None) => {}
        }
    }

    /// Ends the connections that are open.
    pub fn end(&mut self) {
        for (number, both) in std::mem::take(&mut self.all) {
            let lines =
                LinePrinter { format: self.format, prefix: self.shows_numbers.then_some(number) };
            both.iter().for_each(|state| lines.end(state, &mut self.out));
        }
    }

    /// The lines that were added, to be taken away.
    pub fn lines(&mut self) -> &mut Vec<u8> {
        &mut self.out.bytes
    }

    /// What was to be said on standard error, which is taken away.
    pub fn notes(&mut self) -> Vec<String> {
        std::mem::take(&mut self.out.notes)
    }
}

impl PrintState {
    fn new(side: Side) -> PrintState {
        PrintState {
            side,
            decoder: decoder_of(side),
            is_over: false,
            left: 0,
            skipped: 0,
            bytes: Vec::new(),
        }
    }

    /// Passes over what there is of a message that is too long, and gives what follows.
    fn skip<'c>(&mut self, content: &'c [u8]) -> &'c [u8] {
        let count = self.left.min(content.len());
        self.left -= count;
        self.skipped += count;
        &content[count..]
    }
}

/// How the lines of a connection are.
struct LinePrinter {
    format: LineFormat,
    prefix: Option<u32>,
}

impl LinePrinter {
    fn number(&self, out: &mut Vec<u8>) {
        if let Some(number) = self.prefix {
            put(out, format_args!("{number} "));
        }
    }

    /// Adds bytes of a direction, and prints the messages that are whole.
    fn take(&self, state: &mut PrintState, content: &[u8], out: &mut PrinterOutput) {
        let is_shown = self.format != LineFormat::Server || state.side == Side::Server;
        if state.is_over || !is_shown {
            return;
        }
        let content = state.skip(content);
        if content.is_empty() {
            return;
        }
        let mut held = std::mem::take(&mut state.bytes);
        out.held -= held.len();
        held.extend_from_slice(content);
        let count = self.print_whole(state, &held, out);
        held.drain(..count);
        held.shrink_to(HELD_LEAST);
        out.held += held.len();
        state.bytes = held;
    }

    /// Prints messages, and gives how many bytes are passed over.
    fn print_whole(&self, state: &mut PrintState, bytes: &[u8], out: &mut PrinterOutput) -> usize {
        let (mut at, room) = (0, HELD_MOST.saturating_sub(out.held).max(HELD_LEAST));
        loop {
            match self.next(state, &bytes[at..]) {
                Ok(Next::Incomplete { needed, .. }) if needed > room => {
                    out.notes.push(format!("a message of {needed} bytes isn't shown"));
                    (state.left, state.skipped) = (needed, 0);
                    state.skip(&bytes[at..]);
                    return bytes.len();
                }
                Ok(Next::Incomplete { .. }) => return at,
                Ok(Next::Frame(frame)) => {
                    self.number(&mut out.bytes);
                    self.print(state.side, &frame, &mut out.bytes);
                    at += frame.bytes.len();
                }
                Err(words) => {
                    self.number(&mut out.bytes);
                    put(&mut out.bytes, format_args!("{words}\n"));
                    state.is_over = true;
                    return bytes.len();
                }
            }
        }
    }

    /// The message at the front, or what is wrong with it.
    fn next<'b>(&self, state: &mut PrintState, bytes: &'b [u8]) -> Result<Next<'b>, String> {
        match *bytes {
            [tag, _, _, _, _, ..] if !self.has_line(state.side, tag) => {
                Err(format!("unknown message type: {tag}"))
            }
            _ => {
                let next = state.decoder.next(bytes);
                next.map_err(|fault| fault.to_string())
            }
        }
    }

    /// Whether there is a line of a message by its tag. The decoder judges those of a client.
    fn has_line(&self, side: Side, tag: u8) -> bool {
        let is_server_line = side == Side::Server && !matches!(self.format, LineFormat::Trace(_));
        !is_server_line || trace::server_name(tag).is_some()
    }

    fn print(&self, side: Side, frame: &Frame<'_>, out: &mut Vec<u8>) {
        let body = frame.body();
        match (self.format, side, frame.tag) {
            (LineFormat::Trace(style), _, Some(tag)) => {
                trace::message(out, style, side, tag, body);
            }
            (LineFormat::Trace(style), _, None) => {
                trace::first_message(out, style, body);
            }
            (_, Side::Server, Some(tag)) => lines::server_line(out, tag, body),
            _ => lines::client_line(out, frame),
        }
    }

    /// Prints a message whose body is left out.
    fn left_out(&self, side: Side, content: &[u8], out: &mut PrinterOutput) {
        let (tag, length) = match content {
            &[tag, a, b, c, d] => (tag, u32::from_be_bytes([a, b, c, d])),
            _ => return,
        };
        self.number(&mut out.bytes);
        match (self.format, side) {
            (LineFormat::Trace(style), _) => {
                trace::left_out(&mut out.bytes, style, side, tag, length)
            }
            (_, Side::Server) => lines::left_out_line(&mut out.bytes, tag, length),
            (_, Side::Client) => put(&mut out.bytes, "password left-out\n"),
        }
    }

    /// Prints how many bytes of a direction are no whole message, where there are any.
    fn end(&self, state: &PrintState, out: &mut PrinterOutput) {
        let rest = match state.left {
            0 => state.bytes.len(),
            _ => state.skipped,
        };
        if rest > 0 && !state.is_over {
            self.number(&mut out.bytes);
            put(&mut out.bytes, format_args!("rest {rest}\n"));
        }
    }
}

/// Adds text.
fn put(out: &mut Vec<u8>, text: impl Display) {
    // Writing to a vector never fails.
    let _ = write!(out, "{text}");
}

#[cfg(test)]
mod tests {
    use super::*;

    fn printer(format: LineFormat, connections: u32) -> Printer {
        let mut printer = Printer::new(format, None, false);
        (1..=connections).for_each(|number| printer.take(number, RecordKind::Opened, b"a"));
        printer
    }

    #[test]
    fn each_kind_of_a_server_has_its_line() {
        let stream = b"v\0\0\0\x0c\0\x03\0\0\0\0\0\0W\0\0\0\x07\0\0\0V\0\0\0\x08\xff\xff\xff\xffZ\0\0\0\x05I";
        for format in [LineFormat::Server, LineFormat::Lines] {
            let mut printer = printer(format, 1);
            printer.take(1, RecordKind::Bytes(Side::Server), stream);
            assert_eq!(
                String::from_utf8_lossy(printer.lines()),
                "NegotiateProtocolVersion 12 0003000000000000\nCopyBothResponse 7 000000\n\
                 FunctionCallResponse 8 ffffffff\nReadyForQuery 5 49\n"
            );
        }
    }

    /// The bytes that directions hold, and have room for.
    fn held(printer: &Printer) -> (usize, usize) {
        let all = || printer.all.values().flatten().map(|state| &state.bytes);
        (all().map(Vec::len).sum(), all().map(Vec::capacity).sum())
    }

    #[test]
    fn all_connections_together_hold_little() {
        let (mut printer, connections) = (printer(LineFormat::Lines, 8), 8);
        let (length, piece) = (48 << 20, vec![0; 16 << 20]);
        for number in 1..=connections {
            let mut begun = vec![b'D'];
            begun.extend_from_slice(&u32::to_be_bytes(length));
            begun.extend_from_slice(&piece);
            printer.take(number, RecordKind::Bytes(Side::Server), &begun);
            assert!(held(&printer).0 <= HELD_MOST);
        }
        assert!(printer.notes().contains(&"a message of 50331649 bytes isn't shown".to_owned()));
        printer.take(1, RecordKind::Bytes(Side::Server), &piece);
        printer.take(1, RecordKind::Bytes(Side::Server), &piece[5..]);
        assert!(held(&printer).1 <= HELD_MOST);
        (1..=connections).for_each(|number| printer.take(number, RecordKind::Closed, b"F"));
        assert_eq!(printer.out.held, 0);
    }
}
