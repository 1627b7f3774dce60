//! What is said about a difference, here and to the client.

mod advice;
mod diff;
mod difference;
mod doubt;
mod rule;

use crate::pool::ExpectedRequest;
use crate::recorded::{ConnectionEnding, Recording, HEAD, MESSAGE_MOST};
use crate::rules::ReplayRules;
use difference::difference;
use lines::trace::{self, Style};
use pgmsg::backend::{Field, FieldKind, Message, TransactionStatus};
use std::collections::HashSet;

pub use advice::RuleAdviser;
pub use difference::Difference;
pub use doubt::sentence as doubt;

/// Longer texts are cut.
const SHOWN: usize = 4096;

/// What is at a side.
#[derive(Clone, Debug)]
pub enum ReportedMessage {
    /// Words for what is there in the place of a message.
    Words(String),
    /// A message, from its tag on.
    Message(Vec<u8>),
    /// A message without a tag, from its length on.
    Startup(Vec<u8>),
    /// A message that is too long to be shown.
    Long { tag: u8, length: u32 },
}

impl ReportedMessage {
    pub fn message(message: &[u8]) -> ReportedMessage {
        ReportedMessage::Message(message.to_vec())
    }

    /// A message of which some bytes are there, of a length with its tag.
    pub fn bytes(bytes: &[u8], length: usize) -> ReportedMessage {
        match length > MESSAGE_MOST || bytes.len() < length {
            true => ReportedMessage::Long { tag: bytes[0], length: (length - 1) as u32 },
            false => ReportedMessage::message(bytes),
        }
    }

    /// What was recorded in the place of what came.
    pub fn recorded(recording: &Recording, expected: &ExpectedRequest) -> ReportedMessage {
        let request = match (expected.request, expected.ending) {
            (Some(request), _) => request,
            (None, ConnectionEnding::Terminate) => {
                return ReportedMessage::Message(b"X\0\0\0\x04".to_vec())
            }
            (None, ConnectionEnding::Unrecorded { .. }) => {
                return ReportedMessage::Words("the recording ends here".to_owned())
            }
            (None, _) => return ReportedMessage::Words("the connection ended".to_owned()),
        };
        match recording.message(request) {
            Ok(message) => ReportedMessage::read(message),
            Err(why) => ReportedMessage::Words(format!("what {why}")),
        }
    }

    /// The Startup of a recorded connection.
    pub fn startup(recording: &Recording, connection: usize) -> ReportedMessage {
        match recording.message(recording.connections[connection].startup) {
            Ok(message) => ReportedMessage::Startup(message),
            Err(why) => ReportedMessage::Words(format!("what {why}")),
        }
    }

    /// A message of the recording: its head alone where it is long.
    pub fn read(message: Vec<u8>) -> ReportedMessage {
        let length = message[1..HEAD].iter().fold(0, |sum, byte| sum << 8 | u32::from(*byte));
        match length as usize + 1 > message.len() {
            true => ReportedMessage::Long { tag: message[0], length },
            false => ReportedMessage::Message(message),
        }
    }

    /// A message as a line of libpq's PQtrace.
    fn trace(&self) -> String {
        let (mut out, style, client) = (Vec::new(), Style::Whole, recording::Side::Client);
        match self {
            ReportedMessage::Words(_) => {}
            ReportedMessage::Message(message) => {
                let _ = trace::message(&mut out, style, client, message[0], &message[HEAD..]);
            }
            ReportedMessage::Startup(message) => {
                let _ = trace::first_message(&mut out, style, &message[4..]);
            }
            ReportedMessage::Long { tag, length } => {
                trace::left_out(&mut out, style, client, *tag, *length)
            }
        }
        String::from_utf8_lossy(&out).trim_end_matches('\n').to_owned()
    }

    pub(super) fn line(&self) -> String {
        let mut line = match self {
            ReportedMessage::Words(words) => words.clone(),
            _ => self.trace(),
        };
        if line.len() > SHOWN {
            let end = (0..=SHOWN).rev().find(|at| line.is_char_boundary(*at));
            line.truncate(end.unwrap_or_default());
        }
        line
    }
}

/// What may differ in what is compared.
pub struct AllowedDifferences<'r> {
    pub rules: &'r ReplayRules,
    pub adviser: &'r RuleAdviser,
    /// The text of the statement of a Bind.
    pub statement: Option<Vec<u8>>,
}

impl AllowedDifferences<'_> {
    /// Tells whether the value of a parameter may differ, by its position from 1 on.
    fn any_value(&self) -> impl Fn(usize) -> bool + '_ {
        let rules = self.rules;
        let free = self.statement.as_ref().map(|it| rules.free_parameters(&rules.text(it)));
        let free: HashSet<usize> = free.into_iter().flatten().collect();
        move |position| rules.is_any_parameter(position) || free.contains(&position)
    }
}

/// What is said of a difference.
pub struct DifferenceReport {
    is_startup: bool,
    sentence: String,
    sides: String,
    /// The parts that differ, and the rule that would let them.
    more: String,
}

impl DifferenceReport {
    /// Of a message of a connection, where one is taken.
    pub fn new(
        place: (Option<u32>, u32),
        allowed: &AllowedDifferences<'_>,
        recorded: &ReportedMessage,
        received: &ReportedMessage,
        part: Option<Difference>,
    ) -> DifferenceReport {
        let (connection, number) = place;
        let connection = connection.map_or(String::new(), |it| format!(" of connection {it}"));
        let part = part.or_else(|| difference(allowed, recorded, received));
        let part = part.map_or(String::new(), |it| format!(": {}", it.words(recorded, received)));
        let rule = rule::of(allowed, recorded, received);
        let rule = rule.map_or(String::new(), |it| allowed.adviser.words(&it));
        DifferenceReport {
            is_startup: number == 1,
            sentence: format!("message {number}{connection} isn't the recorded one{part}"),
            sides: format!("recorded: {}\nreceived: {}", recorded.line(), received.line()),
            more: diff::lines(allowed, recorded, received) + &rule,
        }
    }

    /// Of a message of a client that may mean another one, which isn't let pass.
    pub fn of_doubt(recording: &Recording, request: usize, rival: usize) -> DifferenceReport {
        DifferenceReport {
            is_startup: recording.is_startup(request),
            sentence: doubt(recording, request, rival),
            sides: doubt::ADVICE.to_owned(),
            more: String::new(),
        }
    }

    /// What is said here.
    pub fn words(&self) -> String {
        format!("pg_replay: {}\n{}{}", self.sentence, self.sides, self.more)
    }

    /// What the client hears: an error that ends its session, and a ReadyForQuery after it, without which some drivers show
    /// none.
    pub fn error(&self) -> Vec<u8> {
        let ready = Message::ReadyForQuery(TransactionStatus::Idle);
        self.written("FATAL", Some(ready).filter(|_| !self.is_startup))
    }

    /// What it hears where its session goes on.
    pub fn refusal(&self) -> Vec<u8> {
        self.written("ERROR", None)
    }

    fn written(&self, severity: &str, then: Option<Message<'_>>) -> Vec<u8> {
        let (sentence, detail) =
            (plain(&self.sentence), plain(&format!("{}{}", self.sides, self.more)));
        let mut fields = fields(severity, "08P01", &sentence);
        fields.push(Field::new(FieldKind::Detail, &detail));
        let mut bytes = bytes_of(&Message::ErrorResponse(fields.into()));
        bytes.extend(then.iter().flat_map(bytes_of));
        bytes
    }
}

/// The bytes of a message; none of one that can't be written.
pub fn bytes_of(message: &Message<'_>) -> Vec<u8> {
    let mut bytes = Vec::new();
    message.write(&mut bytes).map_or(Vec::new(), |()| bytes)
}

/// The fields of an error that ends a session.
pub fn fatal<'a>(code: &'a str, message: &'a str) -> Vec<Field<'a>> {
    fields("FATAL", code, message)
}

/// An error after which a session goes on.
pub fn refusal(code: &str, message: &str) -> Vec<u8> {
    bytes_of(&Message::ErrorResponse(fields("ERROR", code, message).into()))
}

fn fields<'a>(severity: &'a str, code: &'a str, message: &'a str) -> Vec<Field<'a>> {
    vec![
        Field::new(FieldKind::LocalizedSeverity, severity),
        Field::new(FieldKind::Severity, severity),
        Field::new(FieldKind::Code, code),
        Field::new(FieldKind::Message, message),
    ]
}

/// A text that a client takes in any encoding.
fn plain(text: &str) -> String {
    let plain =
        |it: char| if it == '\n' || it == '\t' || (' '..='~').contains(&it) { it } else { '?' };
    text.chars().map(plain).collect()
}
