//! Secrets taken out of a recording: what rules name, and what is secret without one.
//!
//! The recording is read more than once: what is masked in one place is masked wherever it stands. A value keeps its length
//! and its type, and a password neither.

mod followed_session;
mod known_secrets;
mod lexer;
mod literal;
mod mask;
mod masked_names;
mod masked_ranges;
#[cfg(test)]
mod recordings;
mod request_queue;
mod rules;
mod session;
mod sql;
mod values;

use crate::event::{Event, EventKind, RawMessage};
use crate::failure::{Result, TapeFailure, TapeStatus};
use crate::import::closed_by;
use crate::output::Output;
use crate::progress::Progress;
use crate::record_assembler::{AssembleError, RecordAssembler, RecordPosition};
use crate::recording_file::RecordingFile;
use known_secrets::KnownSecrets;
use mask::WHOLE;
use masked_ranges::MaskedRanges;
use recording::{RecordKind, Side};
use rules::RedactionRules;
use session::SessionStates;
use std::borrow::Cow;
use std::collections::HashSet;
use std::path::Path;

/// The length of a message that has the mask of a password, which ends with a byte 0.
const LEFT_OUT: u32 = (4 + WHOLE.len() + 1) as u32;

/// Takes secrets out of a recording, by a file of rules where one is named.
pub fn redact(path: &Path, rules: Option<&Path>, to: &Path) -> Result<TapeStatus> {
    let rules = rules.map_or_else(|| Ok(RedactionRules::default()), RedactionRules::read)?;
    if std::fs::metadata(path).is_ok_and(|it| !it.is_file()) {
        let words = format!("{} is read more than once, and is no file", path.display());
        return Err(TapeFailure::new(TapeStatus::Usage, words));
    }
    let mut redactor = Redactor { rules, ..Redactor::default() };
    let mut out = Output::create(to)?;
    redactor.learn(path)?;
    let mut recording = RecordingFile::open(path, &Progress::new("redact", &[path]))?;
    let unassembled = |why| TapeFailure::unwritten(to, &other(why));
    let mut assembler = RecordAssembler::new(&mut out, recording.begun())
        .map_err(|why| TapeFailure::unwritten(to, &why))?;
    recording.events(|event| match redactor.is_written(&event) {
        true => Ok(()),
        false => add(&mut assembler, redactor.event(event)).map_err(unassembled),
    })?;
    assembler.end().map(drop).map_err(unassembled)?;
    recording.say_cut();
    out.end()?;
    Ok(redactor.report())
}

fn other(why: AssembleError) -> std::io::Error {
    match why {
        AssembleError::File(why) => why,
        why => std::io::Error::other(why),
    }
}

/// Adds an event to a recording.
fn add(
    assembler: &mut RecordAssembler<&mut Output>,
    event: Event<'_>,
) -> std::result::Result<(), AssembleError> {
    let Event { connection, time, begins, kind } = event;
    let position = |side| RecordPosition { connection, time, side, begins };
    match kind {
        EventKind::Opened(address) => {
            assembler.record(RecordKind::Opened, connection, time, &address)
        }
        EventKind::Closed(side) => {
            assembler.record(RecordKind::Closed, connection, time, closed_by(side))
        }
        EventKind::Encrypted => assembler.record(RecordKind::Encrypted, connection, time, b""),
        EventKind::LeftOut { side, tag, length } => {
            let [a, b, c, d] = length.to_be_bytes();
            assembler.record(RecordKind::LeftOut(side), connection, time, &[tag, a, b, c, d])
        }
        EventKind::Message { side, message, here } => {
            let here = Some(here).filter(|here| *here < message.bytes.len());
            assembler.message(position(side), &message.bytes, here)
        }
        EventKind::Continued { side, here } => assembler.go_on(position(side), here),
        EventKind::Bytes { side, bytes } => assembler.message(position(side), &bytes, None),
    }
}

/// Takes secrets out of events.
#[derive(Default)]
struct Redactor {
    rules: RedactionRules,
    sessions: SessionStates,
    known: KnownSecrets,
    /// The sides whose last message has another length, and is written as a whole where it begins.
    whole: HashSet<(u32, Side)>,
    /// How many bytes were no messages whose fields can be looked at.
    unread: u64,
    /// How many values may be some that rules name, which can't be told.
    untold: u64,
}

impl Redactor {
    /// Learns which secrets a recording has. What the server refuses to prepare is known only at the end, so that a recording
    /// with such is read again.
    fn learn(&mut self, path: &Path) -> Result<()> {
        let (mut refused, mut is_new) = (0, true);
        while is_new {
            let mut recording = RecordingFile::open(path, &Progress::new("read", &[path]))?;
            recording.events(|event| {
                self.event(event);
                Ok(())
            })?;
            let known = std::mem::replace(&mut refused, self.sessions.end());
            is_new = refused != known;
        }
        self.known.complete();
        (self.unread, self.untold) = (0, 0);
        Ok(())
    }

    /// Whether an event is a part of a message that is written already.
    fn is_written(&self, event: &Event<'_>) -> bool {
        match event.kind {
            EventKind::Continued { side, .. } => self.whole.contains(&(event.connection, side)),
            _ => false,
        }
    }

    fn event<'a>(&mut self, event: Event<'a>) -> Event<'a> {
        let kind = match event.kind {
            EventKind::Message { side, message, here } => {
                let len = message.bytes.len();
                let message = self.message(event.connection, side, message);
                let is_other = message.bytes.len() != len;
                if is_other {
                    self.whole.insert((event.connection, side));
                } else if !self.whole.is_empty() {
                    self.whole.remove(&(event.connection, side));
                }
                let here = if is_other { message.bytes.len() } else { here };
                EventKind::Message { side, message, here }
            }
            EventKind::Opened(address) => EventKind::Opened(self.searched(address, false)),
            EventKind::Bytes { side, bytes } => {
                self.unread += bytes.len() as u64;
                EventKind::Bytes { side, bytes: self.searched(bytes, true) }
            }
            EventKind::Closed(side) => {
                self.sessions.close(event.connection);
                EventKind::Closed(side)
            }
            EventKind::LeftOut { side: Side::Client, tag, .. } => {
                // The length of a message tells that of its password.
                EventKind::LeftOut { side: Side::Client, tag, length: LEFT_OUT }
            }
            kind => kind,
        };
        Event { kind, ..event }
    }

    /// Bytes that are no message, without the secrets of a text.
    fn searched<'a>(&mut self, bytes: Cow<'a, [u8]>, is_tight: bool) -> Cow<'a, [u8]> {
        let mut ranges = MaskedRanges::new(&bytes, &mut self.known);
        ranges.tighten(is_tight);
        values::search(&bytes, &mut self.rules, &mut ranges);
        ranges.masked(bytes, None)
    }

    fn message<'a>(
        &mut self,
        connection: u32,
        side: Side,
        message: RawMessage<'a>,
    ) -> RawMessage<'a> {
        let mut ranges = MaskedRanges::new(&message.bytes, &mut self.known);
        let session = self.sessions.of(connection);
        let (tag, body) = (message.tag, message.body());
        match side {
            Side::Client => session.said(tag, body),
            Side::Server => session.heard(tag, body),
        }
        let is_read = match side {
            Side::Client => match pgmsg::frontend::Message::read_body(tag, body) {
                Ok(read) => {
                    session.client(&read);
                    values::client(&read, session, &mut self.rules, &mut ranges);
                    true
                }
                Err(_) => false,
            },
            Side::Server => match pgmsg::backend::Message::read_body(tag, body) {
                Ok(read) => {
                    values::server(&read, session, &mut self.rules, &mut ranges);
                    session.server(&read);
                    true
                }
                Err(_) => false,
            },
        };
        if !is_read {
            self.unread += body.len() as u64;
            ranges.tighten(true);
            values::search(body, &mut self.rules, &mut ranges);
        }
        self.untold += ranges.untold;
        if ranges.are_learnt() {
            return message;
        }
        RawMessage { tag, bytes: ranges.masked(message.bytes, Some(usize::from(tag.is_some()))) }
    }

    /// Says which rules did nothing, and what could not be looked at.
    fn report(&self) -> TapeStatus {
        for rule in self.rules.idle() {
            crate::say(format_args!("the rule {rule} matched nothing"));
        }
        if self.unread > 0 {
            crate::say(format_args!(
                "{} bytes are no messages whose fields can be read, or belong to messages above 4 MiB: in them only patterns of \
                 [[redact.text]], passwords and what is known as a secret were looked for",
                self.unread
            ));
        }
        if self.untold > 0 {
            crate::say(format_args!(
                "{} values may be secrets: no description names their columns, or no Parse their statement",
                self.untold
            ));
        }
        match self.unread + self.untold {
            0 => TapeStatus::Ok,
            _ => TapeStatus::Untold,
        }
    }
}

#[cfg(test)]
mod tests {
    use super::*;
    use pgmsg::backend::{
        self, Column, Field, FieldKind, FunctionCallResponse, NegotiateProtocolVersion,
        NotificationResponse, Other, ParameterStatus,
    };
    use pgmsg::frontend::{self, Bind, Execute, FunctionCall, Parse, Startup, Target};
    use pgmsg::Format;

    /// What takes secrets out by the pattern of a text.
    fn redactor(pattern: &str) -> Redactor {
        let rules =
            RedactionRules::parse(&format!("[[redact.text]]\npattern = '{pattern}'")).unwrap();
        let mut redactor = Redactor { rules, ..Redactor::default() };
        redactor.known.complete();
        redactor
    }

    /// The messages of a client that have texts, each of which is this one.
    fn of_client(text: &str) -> Vec<frontend::Message<'_>> {
        use frontend::Message as M;
        vec![
            M::Startup(Startup::new(&[(text, text)])),
            M::Query(text.into()),
            M::Parse(Parse { statement: text.into(), query: text.into(), types: [].into() }),
            M::Bind(Bind {
                portal: text.into(),
                statement: text.into(),
                values: [text.into()].into(),
                ..Bind::default()
            }),
            M::Describe(Target::Statement(text.into())),
            M::Describe(Target::Portal(text.into())),
            M::Execute(Execute { portal: text.into(), max_rows: 0 }),
            M::Close(Target::Statement(text.into())),
            M::Close(Target::Portal(text.into())),
            M::FunctionCall(FunctionCall {
                object_id: 1,
                formats: [].into(),
                arguments: [text.into()].into(),
                result_format: Format::TEXT,
            }),
            M::CopyData(text.into()),
            M::CopyFail(text.into()),
        ]
    }

    /// Those of a server.
    fn of_server(text: &str) -> Vec<backend::Message<'_>> {
        use backend::Message as M;
        vec![
            M::ParameterStatus(ParameterStatus { name: text.into(), value: text.into() }),
            M::NegotiateProtocolVersion(NegotiateProtocolVersion {
                options: [text.into()].into(),
                ..Default::default()
            }),
            M::RowDescription([Column::new("id", 23), Column::new(text, 25)].into()),
            M::DataRow([text.into()].into()),
            M::CommandComplete(text.into()),
            M::CopyData(text.into()),
            M::ErrorResponse([Field::new(FieldKind::Message, text)].into()),
            M::NoticeResponse([Field::new(FieldKind::Other(b'!'), text)].into()),
            M::NotificationResponse(NotificationResponse {
                process_id: 1,
                channel: text.into(),
                payload: text.into(),
            }),
            M::FunctionCallResponse(FunctionCallResponse(text.into())),
            M::Other(Other { tag: b'?', body: text.into() }),
        ]
    }

    /// What has the messages of both sides, and other records with texts.
    fn events(text: &str) -> Vec<EventKind<'static>> {
        let mut all = vec![
            EventKind::Opened(text.as_bytes().to_vec().into()),
            EventKind::Bytes { side: Side::Client, bytes: text.as_bytes().to_vec().into() },
        ];
        let event = |side, tag, bytes: Vec<u8>| EventKind::Message {
            side,
            here: bytes.len(),
            message: RawMessage { tag, bytes: bytes.into() },
        };
        for message in of_client(text) {
            let mut bytes = Vec::new();
            message.write(&mut bytes).unwrap();
            all.push(event(Side::Client, message.tag(), bytes));
        }
        for message in of_server(text) {
            let mut bytes = Vec::new();
            message.write(&mut bytes).unwrap();
            all.push(event(Side::Server, message.tag(), bytes));
        }
        all
    }

    #[test]
    fn a_pattern_reaches_each_text() {
        let mut redactor = redactor(r"card-(\d+)");
        for (kind, wanted) in events("the card-4711").into_iter().zip(events("the card-1000")) {
            let event = Event { connection: 1, time: 0, begins: true, kind };
            assert_eq!(redactor.event(event).kind, wanted);
        }
    }

    #[test]
    fn the_length_of_a_password_that_was_left_out_is_not_told() {
        let mut redactor = redactor("a");
        let left_out = |length| EventKind::LeftOut { side: Side::Client, tag: b'p', length };
        for length in [4, 400] {
            let event = Event { connection: 1, time: 0, begins: true, kind: left_out(length) };
            assert_eq!(redactor.event(event).kind, left_out(13));
        }
    }

    #[test]
    fn names_of_statements_stay_different_within_their_session() {
        let mut redactor = redactor(r"s_(\w+)");
        let table = [(1, "s_ann", "s_xxx"), (1, "s_bob", "s_xxy"), (2, "s_bob", "s_xxx")];
        for (connection, name, wanted) in table.iter().chain(&table) {
            let mut bytes = Vec::new();
            Execute { portal: name.into(), max_rows: 0 }.write(&mut bytes).unwrap();
            let message = RawMessage { tag: Some(b'E'), bytes: bytes.into() };
            let message = redactor.message(*connection, Side::Client, message);
            assert_eq!(Execute::read(message.body()).unwrap().portal, wanted, "{name}");
        }
    }
}
