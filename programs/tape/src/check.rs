//! Where a recorded session breaks the order of the protocol.

mod trail;

use crate::event::{EventKind, RawMessage};
use crate::failure::{Result, TapeFailure, TapeStatus};
use crate::line::LineWriter;
use crate::progress::Progress;
use crate::recording_file::RecordingFile;
use pgmsg::flow::{Fault, Flow, Heard, Mode};
use pgmsg::frontend;
use recording::Side;
use std::collections::HashMap;
use std::fmt;
use std::io::{self, Write};
use std::path::Path;
use trail::Trail;

/// Prints where sessions of a recording break the order, and how many were followed.
pub fn check(path: &Path) -> Result<TapeStatus> {
    let mut recording = RecordingFile::open(path, &Progress::new("check", &[path]))?;
    let mut checker = Checker::default();
    let mut out = io::stdout().lock();
    let unwritten = |why| TapeFailure::unwritten(Path::new("standard output"), &why);
    recording.events(|event| match checker.take(event.connection, event.time, &event.kind) {
        Some(break_) => writeln!(out, "{break_}").map_err(unwritten),
        None => Ok(()),
    })?;
    recording.say_cut();
    let counts = checker.counts;
    writeln!(out, "{counts}").map_err(unwritten)?;
    Ok(match counts.broken {
        0 => TapeStatus::Ok,
        _ => TapeStatus::OutOfOrder,
    })
}

/// How many sessions there are, and their messages.
#[derive(Clone, Copy, Debug, Default, PartialEq, Eq)]
struct Counts {
    sessions: u64,
    /// Those that were followed.
    messages: u64,
    broken: u64,
    unfollowed: u64,
}

impl fmt::Display for Counts {
    fn fmt(&self, f: &mut fmt::Formatter<'_>) -> fmt::Result {
        let Counts { sessions, messages, broken, unfollowed } = self;
        write!(f, "{sessions} sessions, {messages} messages followed; ")?;
        write!(f, "{broken} sessions break the order, {unfollowed} can't be followed to their end")
    }
}

/// A message that can't come where it came.
#[derive(Debug, PartialEq, Eq)]
struct Break {
    connection: u32,
    /// The number of the message in its session, from 1 on.
    number: u64,
    time: u64,
    side: Side,
    kind: String,
    fault: Fault,
    /// The messages of its side that could have come.
    due: Vec<&'static str>,
}

impl fmt::Display for Break {
    fn fmt(&self, f: &mut fmt::Formatter<'_>) -> fmt::Result {
        let side = match self.side {
            Side::Client => "client",
            Side::Server => "server",
        };
        let (seconds, rest) = (self.time / 1_000_000, self.time % 1_000_000);
        write!(f, "connection {}, message {}, ", self.connection, self.number)?;
        write!(f, "{} of the {side} at {seconds}.{rest:06} s: {}", self.kind, self.fault)?;
        match &self.due[..] {
            [] => write!(f, "; nothing of the {side} could have come"),
            due => write!(f, "; what could have come: {}", due.join(", ")),
        }
    }
}

/// Follows the sessions of a recording.
#[derive(Default)]
struct Checker {
    sessions: HashMap<u32, Session>,
    counts: Counts,
    lines: LineWriter,
}

/// A session that is followed.
struct Session {
    flow: Flow,
    trail: Trail,
    state: State,
    is_replication: bool,
    /// Messages of its login are left out.
    is_left_out: bool,
    messages: u64,
}

/// Whether a session is followed.
#[derive(Clone, Copy, Debug, PartialEq, Eq)]
enum State {
    Followed,
    /// The server has said its last words, and what the client says then has crossed them.
    Over,
    /// It is broken, or can't be followed.
    Left,
}

impl Checker {
    /// Takes what comes next, and gives where that breaks the order of its session.
    fn take(&mut self, connection: u32, time: u64, kind: &EventKind<'_>) -> Option<Break> {
        if let EventKind::Opened(_) = kind {
            self.sessions.insert(connection, Session::new());
            self.counts.sessions += 1;
            return None;
        }
        if let EventKind::Closed(_) = kind {
            self.sessions.remove(&connection);
            return None;
        }
        let session = self.sessions.get_mut(&connection)?;
        if session.state == State::Left {
            return None;
        }
        let (side, message) = match kind {
            EventKind::Message { side, message, .. } => (*side, message.clone()),
            EventKind::LeftOut { side, tag, .. } => (*side, session.left_out(*side, *tag)),
            // A message that is too long to be held, or one that isn't whole, has no tag here.
            EventKind::Bytes { .. } | EventKind::Encrypted => {
                session.state = State::Left;
                self.counts.unfollowed += 1;
                return None;
            }
            _ => return None,
        };
        session.messages += 1;
        let fault = match session.step(side, &message) {
            Ok(()) => {
                self.counts.messages += 1;
                return None;
            }
            Err(fault) => fault,
        };
        session.state = State::Left;
        if session.is_beyond(fault, side, message.tag) {
            self.counts.unfollowed += 1;
            return None;
        }
        self.counts.broken += 1;
        Some(Break {
            connection,
            number: session.messages,
            time,
            side,
            kind: self.lines.message(side, &message).kind().to_string(),
            fault,
            due: session.trail.due(side),
        })
    }
}

impl Session {
    fn new() -> Session {
        Session {
            flow: Flow::client(),
            trail: Trail::default(),
            state: State::Followed,
            is_replication: false,
            is_left_out: false,
            messages: 0,
        }
    }

    /// Shows the flow a message.
    fn step(&mut self, side: Side, message: &RawMessage<'_>) -> std::result::Result<(), Fault> {
        let (tag, body) = (message.tag, message.body());
        match side {
            Side::Client if self.state == State::Over => return Ok(()),
            Side::Client => {
                self.flow.said(tag, body)?;
                self.is_replication |= tag.is_none() && asks_for_replication(message);
            }
            Side::Server => {
                if self.flow.heard(tag, body)? == Heard::End {
                    self.state = State::Over;
                }
            }
        }
        match self.flow.mode() == Mode::Idle && self.flow.waits() == 0 {
            true => self.trail.restart(),
            false => self.trail.add(side, tag, body),
        }
        Ok(())
    }

    /// A message of a login whose body is left out, as the flow takes it: the step of authentication that is due.
    fn left_out(&mut self, side: Side, tag: u8) -> RawMessage<'static> {
        self.is_left_out = true;
        let body = match side {
            Side::Client => b"SCRAM-\0".to_vec(),
            Side::Server => self.trail.left_out_step().to_be_bytes().to_vec(),
        };
        let head = [&[tag][..], &(body.len() as u32 + 4).to_be_bytes()].concat();
        RawMessage { tag: Some(tag), bytes: [head, body].concat().into() }
    }

    /// Whether a fault is none of the session, since the flow doesn't follow what it does: the end of a COPY's data before
    /// the server asks for them, and the rest of a transaction that a server of logical replication sends behind its
    /// CopyDone. A login of which messages are left out may be any.
    fn is_beyond(&self, fault: Fault, side: Side, tag: Option<u8>) -> bool {
        let is_login = self.is_left_out && self.flow.mode() == Mode::Login;
        let ends_early =
            side == Side::Client && matches!(tag, Some(b'c' | b'f')) && fault == Fault::NotInCopy;
        let is_rest = self.is_replication && tag == Some(b'd') && fault == Fault::NotAnAnswer;
        is_login || ends_early || is_rest
    }
}

/// Whether a Startup asks for replication.
fn asks_for_replication(message: &RawMessage<'_>) -> bool {
    match frontend::Message::read_body(message.tag, message.body()) {
        Ok(frontend::Message::Startup(startup)) => {
            startup.settings.iter().any(|setting| setting.name == "replication")
        }
        _ => false,
    }
}

#[cfg(test)]
mod tests {
    use super::*;
    use crate::samples::session_of;

    /// The breaks of a session, in words, and the counts.
    fn checked(text: &str) -> (Vec<String>, Counts) {
        let mut checker = Checker::default();
        let mut breaks = Vec::new();
        for kind in session_of(text) {
            breaks.extend(checker.take(1, 1_500_000, &kind).map(|it| it.to_string()));
        }
        (breaks, checker.counts)
    }

    #[test]
    fn sessions_in_order_are_followed_to_their_end() {
        let table = [
            ("_<RSKZ>Q<TDDCZ>X", 12),
            ("_<RZ>PBDESPBES<12tTDCZ>Q<1EZCZ", 25),
            ("_<RZ>PBES<12G>dcS<EZ>Q<CZ", 18),
            ("_<RZ>Q<G>ddc<CZ>Q<HdcCZ", 16),
            // What crosses the last words of the server is passed over.
            ("_<RZE>QQX", 7),
            ("_<E", 2),
            // Replication: data go both ways, and each side ends its own.
            ("r<RZ>Q<Wd>dc<cCCZ>X", 13),
        ];
        for (text, messages) in table {
            let counts = Counts { sessions: 1, messages, ..Counts::default() };
            assert_eq!(checked(text), (vec![], counts), "{text}");
        }
    }

    #[test]
    fn the_message_that_breaks_the_order_is_named_with_what_could_have_come() {
        let table = [
            (
                "_<RZ>Q<TDZ",
                "connection 1, message 7, ReadyForQuery of the server at 1.500000 s: the message doesn't answer \
                 the request that waits; what could have come: RowDescription, DataRow, CommandComplete, ErrorResponse",
            ),
            (
                "_<RZC",
                "connection 1, message 4, CommandComplete of the server at 1.500000 s: no request waits for an answer; what \
                 could have come: ErrorResponse",
            ),
            (
                "_<RZ>Q<1",
                "connection 1, message 5, ParseComplete of the server at 1.500000 s: the message doesn't answer the request \
                 that waits; what could have come: RowDescription, CommandComplete, EmptyQueryResponse, CopyInResponse, \
                 CopyOutResponse, CopyBothResponse, ErrorResponse",
            ),
            (
                "_<Z",
                "connection 1, message 2, ReadyForQuery of the server at 1.500000 s: the login isn't over, and doesn't wait \
                 for this message; what could have come: AuthenticationOk, AuthenticationKerberosV5, AuthenticationCleartextPassword, AuthenticationGSS, \
                 AuthenticationSASL, NegotiateProtocolVersion, ErrorResponse",
            ),
            (
                "_<RZ>Q<G>Q",
                "connection 1, message 6, Query of the client at 1.500000 s: the data of a COPY are to be given or refused \
                 first; what could have come: CopyData, CopyDone, CopyFail, Flush, Terminate",
            ),
            (
                "_<RZ>XQ",
                "connection 1, message 5, Query of the client at 1.500000 s: the session is over; what could have come: \
                 Terminate",
            ),
        ];
        for (text, wanted) in table {
            let (breaks, counts) = checked(text);
            assert_eq!((&breaks[..], counts.broken), (&[wanted.to_owned()][..], 1), "{text}");
        }
    }

    #[test]
    fn what_the_flow_does_not_follow_is_no_break() {
        for text in ["_<RZ>PBEdcS<12GCZ", "r<RZ>Q<Wd>c<cd"] {
            let (breaks, counts) = checked(text);
            assert_eq!((breaks.len(), counts.broken, counts.unfollowed), (0, 0, 1), "{text}");
        }
    }

    #[test]
    fn a_login_whose_messages_are_left_out_is_followed() {
        use EventKind::LeftOut;
        let left = |side, tag| LeftOut { side, tag, length: 9 };
        let (client, server) = (left(Side::Client, b'p'), left(Side::Server, b'R'));
        let mut events = session_of("_");
        events.extend([server.clone(), client.clone(), server.clone(), client, server]);
        events.extend(session_of("<RSZ>Q<CZ").into_iter().skip(1));
        let mut checker = Checker::default();
        for kind in events {
            assert_eq!(checker.take(1, 0, &kind), None, "{kind:?}");
        }
        assert_eq!(checker.counts, Counts { sessions: 1, messages: 12, ..Counts::default() });
    }
}
