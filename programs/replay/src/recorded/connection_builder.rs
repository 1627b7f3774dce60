//! A connection that is read from a recording.

use super::answer_matcher::{AnswerMatcher, RequestKind, Wait};
use super::message_splitter::{MessageSlice, MessageSplitter};
use super::requests::{ChunkOffset, ClientChunk, CompareBy, Requests};
use super::snapshots::SnapshotTracker;
use super::{Chunk, ConnectionEnding, HEAD};
use crate::fingerprint::{Fingerprinter, Fingerprints, UNRECORDED};
use crate::rules::ReplayRules;
use crc32fast::Hasher;
use pgmsg::frontend::Message;
use recording::ConnectionIdentity;
use std::collections::{HashMap, VecDeque};
use std::ops::Range;
use std::sync::Arc;

/// A message whose fingerprint isn't made: its place, its tag, which only the first has none of, and its body.
struct PendingFingerprint {
    request: u32,
    tag: Option<u8>,
    body: Vec<u8>,
}

/// A part of an answer to a message.
pub struct AnswerChunk {
    pub request: u32,
    pub chunk: Chunk,
}

/// A notification that begins there, which a session of a process sent before a time.
pub struct RecordedNotification {
    pub at: u64,
    pub process: u32,
    pub time: u64,
}

/// An exchange ends with a message, and leaves the transaction in a state.
#[derive(Clone, Copy)]
pub struct ExchangeEnd {
    pub request: u32,
    pub status: u8,
}

/// A record of one side.
#[derive(Clone, Copy)]
pub struct RecordBytes<'a> {
    pub content: &'a [u8],
    pub at: u64,
    pub time: u64,
}

/// A connection, as far as its records are read.
pub struct ConnectionBuilder {
    pub number: u32,
    pub identity: ConnectionIdentity,
    client: MessageSplitter,
    pub(super) server: MessageSplitter,
    pub(super) matcher: AnswerMatcher,
    fingerprinter: Fingerprinter,
    fingerprinted: usize,
    pending_fingerprints: VecDeque<PendingFingerprint>,
    pub requests: Requests,
    /// What was heard, as it came.
    pub answers: Vec<AnswerChunk>,
    /// What is waited for, by the offset of what waits.
    pub waits: HashMap<u64, Wait>,
    pub notified: Vec<RecordedNotification>,
    pub ends: Vec<ExchangeEnd>,
    /// The messages that the rules ignore, in their order.
    pub ignored: Vec<u32>,
    pub tracker: SnapshotTracker,
    /// The messages that end a turn after which the transaction goes on, with the number of the snapshot that it reads.
    pub snapshots: HashMap<u32, u32>,
    pub count: u32,
    pub has_terminated: bool,
    pub asks_for_password: bool,
    /// Not of a session: a request to cancel, or bytes that are none.
    pub is_broken: bool,
    pub cancels: Option<u32>,
    pub process: Option<u32>,
    /// When the client spoke first and last.
    spoke: Range<u64>,
    /// When it was closed.
    pub closed: Option<u64>,
    /// Of what the server said before the session was open, without its key.
    pub login: Hasher,
    /// The server's message that isn't whole, and when its parts came.
    pub(super) pending: Vec<(Chunk, u64)>,
    pub(super) long_tag: Option<u8>,
    is_long: bool,
    begins: ChunkOffset,
    pub(super) held: Vec<Chunk>,
    pub(super) held_status: Option<u8>,
    pub(super) has_heard: bool,
    /// Something was heard of the last message.
    is_last_heard: bool,
}

impl ConnectionBuilder {
    pub fn new(number: u32, rules: Arc<ReplayRules>) -> ConnectionBuilder {
        ConnectionBuilder {
            number,
            identity: ConnectionIdentity::default(),
            client: MessageSplitter::of_connection(),
            server: MessageSplitter::of_server(),
            matcher: AnswerMatcher::default(),
            fingerprinter: Fingerprinter::new(rules),
            fingerprinted: 0,
            pending_fingerprints: VecDeque::new(),
            requests: Requests::default(),
            answers: Vec::new(),
            waits: HashMap::new(),
            notified: Vec::new(),
            ends: Vec::new(),
            ignored: Vec::new(),
            tracker: SnapshotTracker::default(),
            snapshots: HashMap::new(),
            count: 0,
            has_terminated: false,
            asks_for_password: false,
            is_broken: false,
            cancels: None,
            process: None,
            spoke: 0..0,
            closed: None,
            login: Hasher::new(),
            pending: Vec::new(),
            long_tag: None,
            is_long: false,
            begins: ChunkOffset::default(),
            held: Vec::new(),
            held_status: None,
            has_heard: false,
            is_last_heard: false,
        }
    }

    /// Whether it begins with a Startup.
    pub fn is_session(&self) -> bool {
        !self.requests.is_empty() && self.cancels.is_none()
    }

    /// Takes what the client said.
    pub fn take_client(&mut self, bytes: RecordBytes<'_>) {
        let mut rest = bytes.content;
        let first = if self.requests.records() == 0 { bytes.time } else { self.spoke.start };
        self.spoke = first..bytes.time;
        self.requests
            .chunks
            .push(ClientChunk { chunk: Chunk::of(bytes.content, bytes.at), time: bytes.time });
        let mut client = std::mem::replace(&mut self.client, MessageSplitter::of_connection());
        while !self.is_broken {
            if !client.is_within() {
                let at = bytes.content.len() - rest.len();
                self.begins =
                    ChunkOffset { chunk: self.requests.chunks.len() as u32 - 1, at: at as u32 };
            }
            match client.cut(&mut rest) {
                Ok(None) => break,
                Err(_) => self.is_broken = true,
                Ok(Some(MessageSlice::Whole(message))) => self.say(message),
                Ok(Some(MessageSlice::Part(part, left))) => self.say_long(part, left),
            }
        }
        self.client = client;
    }

    fn say(&mut self, message: &[u8]) {
        if self.requests.is_empty() {
            return self.say_first(message);
        }
        let (tag, body) = (message[0], &message[HEAD..]);
        if tag == b'p' {
            return;
        }
        self.count += 1;
        let Some(kind) = kind_of(tag) else {
            self.has_terminated |= tag == b'X';
            return;
        };
        if kind == RequestKind::Data {
            // The state of a standby comes when its clock says so.
            if !(self.matcher.is_both() && is_state_of_standby(body)) {
                self.say_bytes(message.len(), (tag, body));
            }
            return;
        }
        self.add_message(Some(tag), body, kind);
        if let Some(request) = self.requests.list.last_mut() {
            request.is_preparing = is_preparing(kind, body);
        }
    }

    fn say_first(&mut self, message: &[u8]) {
        let body = &message[4..];
        match Message::read_body(None, body) {
            Ok(Message::Startup(_)) => {
                self.count = 1;
                self.add_message(None, body, RequestKind::Startup);
            }
            Ok(Message::CancelRequest(cancel)) => {
                self.cancels = Some(cancel.process_id);
                self.is_broken = true;
            }
            _ => self.is_broken = true,
        }
    }

    /// Adds a part of a long message.
    fn say_long(&mut self, part: &[u8], left: usize) {
        let is_first = !std::mem::replace(&mut self.is_long, left > 0);
        if !is_first {
            return self.requests.extend_last(part.len() as u64);
        }
        self.count += 1;
        let (tag, body) = (part[0], part.get(HEAD..).unwrap_or_default());
        self.say_bytes(part.len(), (tag, body));
        if let (false, Some(kind)) = (tag == b'd', kind_of(tag)) {
            self.follow(kind, (tag, body));
        }
    }

    /// Adds bytes that are compared as they are: data to those before, any other message as one of its own.
    fn say_bytes(&mut self, len: usize, message: (u8, &[u8])) {
        let is_data = message.0 == b'd';
        let compare_by = CompareBy::Bytes(len as u64);
        match self.requests.len().checked_sub(1).map(|last| self.requests.compare_by(last)) {
            Some(CompareBy::Bytes(_)) if is_data && !self.is_last_heard => {
                self.requests.extend_last(len as u64)
            }
            _ if is_data => {
                self.push(compare_by);
                self.follow(RequestKind::Data, message)
            }
            _ => self.push(compare_by),
        }
    }

    /// Adds a message whose fingerprint is made when its exchange is over.
    fn add_message(&mut self, tag: Option<u8>, body: &[u8], kind: RequestKind) {
        self.pending_fingerprints.push_back(PendingFingerprint {
            request: self.requests.len() as u32,
            tag,
            body: body.to_vec(),
        });
        self.push(CompareBy::Fingerprint(UNRECORDED));
        self.follow(kind, (tag.unwrap_or_default(), body));
    }

    fn push(&mut self, compare_by: CompareBy) {
        if let Some(last) = self.requests.list.last_mut() {
            last.goes_on = !self.has_heard;
        }
        (self.has_heard, self.is_last_heard) = (false, false);
        self.requests.push(compare_by, self.begins, self.count);
    }

    fn follow(&mut self, kind: RequestKind, message: (u8, &[u8])) {
        if let Some(request) = self.matcher.request(self.requests.len() - 1, kind, message) {
            self.free(request);
        }
    }

    /// Adds a part of the answer to a message.
    pub(super) fn hear_of(&mut self, request: usize, chunk: Chunk) {
        self.is_last_heard |= request + 1 == self.requests.len();
        self.answers.push(AnswerChunk { request: request as u32, chunk });
    }

    /// Gives what was held its place.
    fn free(&mut self, request: usize) {
        for chunk in std::mem::take(&mut self.held) {
            self.hear_of(request, chunk);
        }
        if let Some(status) = self.held_status.take() {
            self.add_end(request, status);
        }
    }

    /// Notes the end of an exchange. One that was held comes after those that ended meanwhile.
    pub(super) fn add_end(&mut self, request: usize, status: u8) {
        let last = self.ends.last().map_or(0, |it| it.request);
        self.ends.push(ExchangeEnd { request: last.max(request as u32), status });
    }

    /// Makes the fingerprints of the messages of exchanges that are over, and of all others at the end.
    pub fn fingerprint(&mut self, fingerprints: &mut Fingerprints, is_over: bool) {
        while self.fingerprinted < self.ends.len() {
            let ExchangeEnd { request, status } = self.ends[self.fingerprinted];
            self.fingerprint_up_to(request + 1, fingerprints);
            self.fingerprinted += 1;
            self.tracker.end(self.ends[self.fingerprinted - 1]);
            if status == b'I' {
                self.fingerprinter.end_transaction();
            }
        }
        if is_over {
            self.fingerprint_up_to(u32::MAX, fingerprints);
            self.tracker.close();
        }
    }

    fn fingerprint_up_to(&mut self, end: u32, fingerprints: &mut Fingerprints) {
        while self.pending_fingerprints.front().is_some_and(|it| it.request < end) {
            let Some(PendingFingerprint { request, tag, body }) =
                self.pending_fingerprints.pop_front()
            else {
                return;
            };
            let fingerprint = fingerprints.number(self.fingerprinter.message(tag, &body));
            if self.fingerprinter.ignored().is_some() {
                self.ignored.push(request);
            }
            self.fingerprinter.settle(fingerprint);
            self.requests.set_fingerprint(request as usize, fingerprint);
            self.tracker.say(request, tag, &body);
        }
    }

    /// Ends what is held where the connection does.
    pub fn end(&mut self) {
        if !self.held.is_empty() || self.held_status.is_some() {
            self.free(self.requests.len() - 1);
        }
    }

    /// When it was open. A server closes it a while after its client has said so.
    pub fn open(&self) -> Range<u64> {
        let last = if self.has_terminated { Some(self.spoke.end) } else { self.closed };
        self.spoke.start..last.unwrap_or(u64::MAX)
    }

    /// How it ends, by the side that closed it.
    pub fn ending(&self, closed_by_client: Option<bool>) -> ConnectionEnding {
        match closed_by_client {
            _ if self.has_terminated => ConnectionEnding::Terminate,
            Some(true) => ConnectionEnding::ByClient,
            Some(false) => ConnectionEnding::ByServer,
            None => {
                let last = self.ends.last().map(|it| it.request as usize + 1);
                ConnectionEnding::Unrecorded { is_idle: last == Some(self.requests.len()) }
            }
        }
    }
}

/// What a message with this tag is.
fn kind_of(tag: u8) -> Option<RequestKind> {
    Some(match tag {
        b'Q' => RequestKind::Query,
        b'F' => RequestKind::Call,
        b'P' => RequestKind::Parse,
        b'B' => RequestKind::Bind,
        b'D' => RequestKind::Describe,
        b'E' => RequestKind::Execute,
        b'C' => RequestKind::Close,
        b'S' => RequestKind::Sync,
        b'd' => RequestKind::Data,
        b'c' | b'f' => RequestKind::DataEnd,
        // A server answers nothing to a Flush, and its answers don't wait for one here.
        _ => return None,
    })
}

/// Whether a message makes, describes or closes a statement with a name.
fn is_preparing(kind: RequestKind, body: &[u8]) -> bool {
    match kind {
        RequestKind::Parse => !body.starts_with(&[0]),
        RequestKind::Describe | RequestKind::Close => body.starts_with(b"S") && body.len() > 2,
        _ => false,
    }
}

/// Whether data of a replication's client say how far it is, and what its clock shows.
pub fn is_state_of_standby(data: &[u8]) -> bool {
    matches!(data.first(), Some(b'r' | b'h'))
}
