//! Which message may come when, and which request it answers: a session that is followed message by message, without its
//! bytes.
//!
//! A [`Connection`](crate::Connection) is a flow with the bytes of its messages. A proxy, or who reads what others said,
//! shows each message to a [`Flow`].

use crate::backend::TransactionStatus;
use core::fmt;
use pgmsg_core::pg_flow::{self, TransactionStatus as CoreStatus};

pub use pg_flow::{Fault, Heard, Mode};

/// The tag that stands in the core for a message without one.
const NO_TAG: u8 = 0;

/// A session, as its client or its server follows it. Of a body the first six bytes are enough.
///
/// The requests of a client are numbered from 0 on, in the order in which they are said: each Query, Parse, Bind,
/// Describe, Execute, Close, Sync and FunctionCall. A fault changes nothing.
///
/// ```
/// use pgmsg::flow::{Fault, Flow, Heard};
///
/// let mut flow = Flow::ready();
/// assert_eq!(flow.said(Some(b'P'), b"\0TABLE t\0\0\0"), Ok(Some(0)));
/// assert_eq!(flow.said(Some(b'S'), b""), Ok(Some(1)));
/// // The Parse is refused, and what follows is passed over up to the Sync.
/// assert_eq!(flow.heard(Some(b'E'), b"SERROR\0"), Ok(Heard::Answer { request: 0, is_last: true }));
/// assert_eq!(flow.heard(Some(b'1'), b""), Err(Fault::NotAnAnswer));
/// assert_eq!(flow.heard(Some(b'Z'), b"I"), Ok(Heard::Answer { request: 1, is_last: true }));
/// ```
pub struct Flow(pg_flow::Flow);

impl Flow {
    /// The flow of a client that has said nothing yet.
    pub fn client() -> Flow {
        Flow(pg_flow::Flow::client(Default::default()))
    }

    /// The flow of a client whose login is over, and that waits for nothing.
    pub fn ready() -> Flow {
        Flow(pg_flow::Flow::ready(Default::default()))
    }

    /// The flow of a server that has taken nothing yet.
    pub fn server() -> Flow {
        Flow(pg_flow::Flow::server())
    }

    /// The flow of a server whose client is logged in, and that has nothing to answer.
    pub fn ready_server() -> Flow {
        Flow(pg_flow::Flow::ready_server())
    }

    /// Takes a message of the client, by its tag and its body, and gives its number where it is a request.
    #[inline]
    pub fn said(&mut self, tag: Option<u8>, body: &[u8]) -> Result<Option<u64>, Fault> {
        self.0.said(tag.unwrap_or(NO_TAG), body)
    }

    /// Takes a message of the server, by its tag and its body, and gives whose it is. The byte that answers a request for
    /// encryption is a tag here.
    #[inline]
    pub fn heard(&mut self, tag: Option<u8>, body: &[u8]) -> Result<Heard, Fault> {
        self.0.heard(tag.unwrap_or(NO_TAG), body)
    }

    /// What the session waits for.
    pub fn mode(&self) -> Mode {
        self.0.mode()
    }

    /// The status that the last ReadyForQuery reported.
    pub fn status(&self) -> Option<TransactionStatus> {
        Some(match self.0.status()? {
            CoreStatus::Idle => TransactionStatus::Idle,
            CoreStatus::Transaction => TransactionStatus::InTransaction,
            CoreStatus::Error => TransactionStatus::Failed,
        })
    }

    /// The number of the first request that waits; where none does, of the next one that is said.
    pub fn first(&self) -> u64 {
        self.0.first()
    }

    /// How many requests were said from the first that waits on.
    pub fn waits(&self) -> u64 {
        self.0.waits()
    }

    /// How many requests were said.
    pub fn count(&self) -> u64 {
        self.0.count()
    }
}

/// Shows what it waits for.
impl fmt::Debug for Flow {
    fn fmt(&self, f: &mut fmt::Formatter<'_>) -> fmt::Result {
        f.debug_struct("Flow")
            .field("mode", &self.mode())
            .field("status", &self.status())
            .field("first", &self.first())
            .field("waits", &self.waits())
            .finish_non_exhaustive()
    }
}
