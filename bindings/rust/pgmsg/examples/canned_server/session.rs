//! A session.

use crate::answers::{texts, Answer, Canned, OTHER};
use crate::Result;
use pgmsg::backend::Message as Reply;
use pgmsg::backend::{Authentication, BackendKeyData, NegotiateProtocolVersion};
use pgmsg::backend::{NotificationResponse, ParameterStatus, TransactionStatus};
use pgmsg::connection::ServerSide;
use pgmsg::frontend::{CancelRequest, Message, Startup, Target};
use pgmsg::Connection;
use std::collections::HashMap;

/// The settings that the session says to have.
const SETTINGS: [(&str, &str); 3] = [
    ("server_version", "15.0"),
    ("client_encoding", "UTF8"),
    ("standard_conforming_strings", "on"),
];

/// The process that the session says to be.
const PROCESS: u32 = 42;

/// The newest minor version of the protocol that the session speaks.
const NEWEST: u16 = 2;

/// The session's key, of which a client of a version before 3.2 gets the first four bytes.
const KEY: [u8; 32] = *b"a key that is no secret, of this";

/// What a client of a version needs to cancel a query of the session.
fn key_of(minor: u16) -> BackendKeyData<'static> {
    let secret_key = if minor < NEWEST { &KEY[..4] } else { &KEY };
    BackendKeyData { process_id: PROCESS, secret_key: secret_key.into() }
}

/// Whether a request to cancel is of a client that a session gave its key to.
pub fn is_known(request: &CancelRequest<'_>) -> bool {
    let CancelRequest { process_id, secret_key } = *request;
    let keys = [key_of(0), key_of(NEWEST)];
    keys.contains(&BackendKeyData { process_id, secret_key })
}

pub struct Session {
    pub connection: Connection<ServerSide>,
    /// What is to be sent.
    pub out: Vec<u8>,
    statements: HashMap<Vec<u8>, &'static Canned>,
    portals: HashMap<Vec<u8>, &'static Canned>,
    /// How many lines of a COPY came.
    lines: usize,
}

impl Default for Session {
    fn default() -> Session {
        Session {
            connection: Connection::server(),
            out: Vec::new(),
            statements: HashMap::new(),
            portals: HashMap::new(),
            lines: 0,
        }
    }
}

impl Session {
    fn greet(&mut self, startup: &Startup<'_>) -> Result<()> {
        let minor = startup.minor.min(NEWEST);
        let names = startup.settings.iter().map(|setting| setting.name);
        let options = names.filter(|name| name.starts_with(b"_pq_.")).collect();
        let spoken = NegotiateProtocolVersion { major: 3, minor, options };
        if minor < startup.minor || !spoken.options.is_empty() {
            self.say(Reply::NegotiateProtocolVersion(spoken))?;
        }
        self.say(Reply::Authentication(Authentication::Ok))?;
        for (name, value) in SETTINGS {
            let (name, value) = (name.into(), value.into());
            self.say(Reply::ParameterStatus(ParameterStatus { name, value }))?;
        }
        self.say(Reply::BackendKeyData(key_of(minor)))?;
        self.ready()
    }

    /// Sends a message that is due.
    pub fn say(&mut self, message: Reply<'_>) -> Result<()> {
        self.connection.send(&message, &mut self.out)?;
        Ok(())
    }

    fn ready(&mut self) -> Result<()> {
        self.say(Reply::ReadyForQuery(TransactionStatus::Idle))
    }

    pub fn take(&mut self, message: Message<'_>) -> Result<()> {
        match message {
            Message::Startup(startup) => self.greet(&startup),
            // No encryption; this byte is no message.
            Message::SslRequest | Message::GssEncRequest => {
                Ok(self.connection.send_encryption(b'N', &mut self.out)?)
            }
            // A Flush, or what is passed over up to a Sync after an error.
            _ if self.connection.waits() == 0 => Ok(()),
            Message::Query(query) => self.answer(query.as_str()?),
            Message::CopyData(data) => {
                self.lines += data.iter().filter(|&&byte| byte == b'\n').count();
                Ok(())
            }
            Message::CopyDone => {
                let tag = format!("COPY {}", self.lines);
                self.say(Reply::CommandComplete((&tag).into()))?;
                self.ready()
            }
            Message::CopyFail(_) => {
                OTHER.finish("", self)?;
                self.ready()
            }
            Message::Sync => self.ready(),
            message => self.take_extended(message),
        }
    }

    /// Answers a Query.
    fn answer(&mut self, query: &str) -> Result<()> {
        let canned = Canned::of(query);
        match canned.answer {
            _ if query.is_empty() => self.say(Reply::EmptyQueryResponse)?,
            Answer::CopyIn => {
                self.lines = 0;
                return self.say(Reply::CopyInResponse(texts()));
            }
            Answer::Rows(..) => {
                canned.describe(self)?;
                canned.finish(query, self)?;
            }
            Answer::Notify => {
                canned.finish(query, self)?;
                self.notify(query.trim_start_matches("NOTIFY "))?;
            }
            _ => canned.finish(query, self)?,
        }
        self.ready()
    }

    /// Notifies the session of what it says itself.
    fn notify(&mut self, words: &str) -> Result<()> {
        let (channel, payload) = words.split_once(", ").unwrap_or((words, ""));
        self.say(Reply::NotificationResponse(NotificationResponse {
            process_id: PROCESS,
            channel: channel.into(),
            payload: payload.trim_matches('\'').into(),
        }))
    }

    /// Takes a message of the extended protocol.
    fn take_extended(&mut self, message: Message<'_>) -> Result<()> {
        match message {
            Message::Parse(parse) => {
                let canned = Canned::of(parse.query.as_str()?);
                self.statements.insert(parse.statement.to_vec(), canned);
                self.say(Reply::ParseComplete)
            }
            Message::Bind(bind) => {
                let canned = self.known(Target::Statement(bind.statement));
                self.portals.insert(bind.portal.to_vec(), canned);
                self.say(Reply::BindComplete)
            }
            Message::Describe(target) => {
                if let Target::Statement(_) = target {
                    self.say(Reply::ParameterDescription([].into()))?;
                }
                self.known(target).describe(self)
            }
            Message::Execute(execute) => {
                self.known(Target::Portal(execute.portal)).finish("", self)
            }
            Message::Close(target) => {
                match target {
                    Target::Statement(name) => self.statements.remove(name.0),
                    Target::Portal(name) => self.portals.remove(name.0),
                };
                self.say(Reply::CloseComplete)
            }
            _ => Ok(()),
        }
    }

    /// The answer of a statement or a portal: an error where that isn't known, or isn't rows, which a Query alone gets.
    fn known(&self, target: Target<'_>) -> &'static Canned {
        let known = match target {
            Target::Statement(name) => self.statements.get(name.0),
            Target::Portal(name) => self.portals.get(name.0),
        };
        let rows = known.filter(|canned| matches!(canned.answer, Answer::Rows(..)));
        rows.copied().unwrap_or(&OTHER)
    }
}
