//! Reading a recording from its first byte to its last.

use super::connection_builder::{
    AnswerChunk, ConnectionBuilder, ExchangeEnd, RecordBytes, RecordedNotification,
};
use super::requests::{Request, Requests};
use super::snapshots;
use super::{Connection, Recording, Turn, Wait};
use crate::fingerprint::Fingerprints;
use crate::rules::ReplayRules;
use net::{ExitStatus, Failure};
use recording::{Damage, Reader, RecordKind, Side};
use std::collections::HashMap;
use std::fs::File;
use std::io::BufReader;
use std::ops::Range;
use std::path::Path;
use std::sync::Arc;

/// How many messages, parts of answers or records of one side are counted.
const COUNT_MOST: usize = u32::MAX as usize / 2;

/// How many bytes of a recording have a fingerprint of their own where messages are short, and for how many fingerprints
/// there is room at first. (A table that grows is copied, and what is freed then is taken by what grows beside it, piece by
/// piece.)
const BYTES_A_FINGERPRINT: u64 = 256;
const FINGERPRINTS_AT_FIRST: u64 = 1 << 22;

/// Connections that aren't over, and what is known of those that are.
struct RecordingLoader {
    /// When the recording began.
    begun: u64,
    rules: Arc<ReplayRules>,
    fingerprints: Fingerprints,
    open: HashMap<u32, ConnectionBuilder>,
    over: Vec<(ConnectionBuilder, Option<bool>)>,
    encrypted: usize,
    /// When each process was asked to cancel last.
    cancelled: HashMap<u32, u64>,
    /// Where the server's records are, and when they passed; nothing unless that is wanted.
    times: Option<Vec<(u64, u64)>>,
}

/// Reads a recording, with the times of what the server said where they are wanted. What is to be said of it is said by
/// `tell`.
pub fn load(
    path: &Path,
    rules: &Arc<ReplayRules>,
    keeps_times: bool,
    tell: &dyn Fn(String),
) -> Result<Recording, Failure> {
    let unread = |why: &dyn std::fmt::Display| {
        Failure::new(ExitStatus::Local, format!("{} can't be read: {why}", path.display()))
    };
    let file = File::open(path).map_err(|why| unread(&plain(&why)))?;
    let damaged = |damage: Damage| match damage {
        Damage::File(why) => unread(&plain(&why)),
        damage => Failure::new(ExitStatus::Damaged, damage.about(path)),
    };
    let uncounted = || {
        let words = format!("{} has more messages than can be counted", path.display());
        Failure::new(ExitStatus::Local, words)
    };
    let length = file.metadata().map_or(0, |it| it.len());
    let mut reader = Reader::new(BufReader::with_capacity(1 << 18, &file)).map_err(damaged)?;
    let mut loader = RecordingLoader::new(rules, reader.begun(), length, keeps_times);
    while let Some(record) = reader.read().map_err(damaged)? {
        if !loader.take(&record) {
            return Err(uncounted());
        }
    }
    let (path_shown, count) = (path.display(), loader.encrypted);
    if reader.is_cut() {
        let at = reader.at();
        tell(format!("{path_shown} ends within a record: it is read up to its last whole one, to offset {at}"));
    }
    if count > 0 {
        tell(format!("{path_shown}: {count} connections are encrypted, and left out"));
    }
    loader.finish(path, file).ok_or_else(uncounted)
}

/// The words of an error of the system without its number.
pub fn plain(why: &std::io::Error) -> String {
    let words = why.to_string();
    words.split(" (os error").next().unwrap_or_default().to_owned()
}

impl RecordingLoader {
    /// Of a file of so many bytes.
    fn new(
        rules: &Arc<ReplayRules>,
        begun: u64,
        length: u64,
        keeps_times: bool,
    ) -> RecordingLoader {
        RecordingLoader {
            begun,
            rules: rules.clone(),
            fingerprints: Fingerprints::with_capacity(
                (length / BYTES_A_FINGERPRINT).min(FINGERPRINTS_AT_FIRST) as usize,
            ),
            open: HashMap::new(),
            over: Vec::new(),
            encrypted: 0,
            cancelled: HashMap::new(),
            times: keeps_times.then(Vec::new),
        }
    }

    /// Takes a record. Answers false where its connection has more than can be counted.
    fn take(&mut self, record: &recording::Record<'_>) -> bool {
        let number = record.connection;
        let bytes =
            RecordBytes { content: record.content, at: record.content_at, time: record.time };
        if record.kind == RecordKind::Opened {
            self.open.insert(number, ConnectionBuilder::new(number, self.rules.clone()));
        }
        if let Some(builder) = self.open.get_mut(&number) {
            builder.identity.add(self.begun, record);
        }
        match record.kind {
            RecordKind::Bytes(side) => {
                if let Some(builder) = self.open.get_mut(&number) {
                    match side {
                        Side::Client => builder.take_client(bytes),
                        Side::Server => builder.take_server(bytes, &self.cancelled),
                    }
                    builder.fingerprint(&mut self.fingerprints, false);
                    if let Some(process) = builder.cancels {
                        self.cancelled.insert(process, record.time);
                    }
                    if let (Side::Server, Some(times)) = (side, &mut self.times) {
                        times.push((bytes.at, bytes.time));
                    }
                    return builder.count() <= COUNT_MOST;
                }
            }
            RecordKind::LeftOut(Side::Server) => {
                if let Some(builder) = self.open.get_mut(&number) {
                    builder.asks_for_password = true;
                }
            }
            RecordKind::Opened | RecordKind::LeftOut(Side::Client) => {}
            RecordKind::Encrypted => {
                self.encrypted += usize::from(self.open.remove(&number).is_some());
            }
            RecordKind::Closed => {
                if let Some(mut builder) = self.open.remove(&number) {
                    builder.closed = Some(record.time);
                    self.end(builder, Some(record.closed_by() == Some(Side::Client)));
                }
            }
        }
        true
    }

    fn end(&mut self, mut builder: ConnectionBuilder, closed_by_client: Option<bool>) {
        if builder.is_session() {
            builder.end();
            builder.fingerprint(&mut self.fingerprints, true);
            self.over.push((builder, closed_by_client));
        }
    }

    /// The whole of it, unless it has more than can be counted.
    fn finish(mut self, path: &Path, file: File) -> Option<Recording> {
        let open: Vec<_> = self.open.drain().map(|(_, builder)| builder).collect();
        for builder in open {
            self.end(builder, None);
        }
        self.over.sort_unstable_by_key(|(builder, _)| builder.number);
        snapshots::share(self.over.iter_mut().map(|(builder, _)| builder).collect());
        if self.over.iter().map(|(builder, _)| builder.count()).sum::<usize>() > COUNT_MOST {
            return None;
        }
        let mut recording = Recording {
            path: path.to_owned(),
            file,
            fingerprints: self.fingerprints,
            connections: Vec::new(),
            turns: Vec::new(),
            requests: Requests::default(),
            answers: Vec::new(),
            waits: HashMap::new(),
            snapshots: HashMap::new(),
            times: self.times.unwrap_or_default(),
            processes: HashMap::new(),
        };
        let sum = |of: fn(&ConnectionBuilder) -> usize| {
            self.over.iter().map(|(builder, _)| of(builder)).sum::<usize>()
        };
        recording.answers.reserve_exact(sum(|it| it.answers.len()));
        recording.requests.reserve(sum(|it| it.requests.len()), sum(|it| it.requests.records()));
        let mut notified = Vec::new();
        for (builder, closed_by_client) in self.over {
            recording.add(builder, closed_by_client, &mut notified);
        }
        recording.turns.shrink_to_fit();
        recording.find_causes(&notified);
        Some(recording)
    }
}

impl ConnectionBuilder {
    /// The most that is counted of messages, parts of answers and records.
    fn count(&self) -> usize {
        self.requests.len().max(self.answers.len()).max(self.requests.records())
    }
}

impl Recording {
    fn add(
        &mut self,
        mut builder: ConnectionBuilder,
        closed_by_client: Option<bool>,
        notified: &mut Vec<RecordedNotification>,
    ) {
        let (base, connection) = (self.requests.len(), self.connections.len());
        let ending = builder.ending(closed_by_client);
        let begin = self.turns.len();
        self.add_turns(&builder);
        mark_ignored(&builder.ends, &builder.ignored, &mut builder.requests);
        mark_preparing(&builder.ends, &mut builder.requests.list);
        if let Some(process) = builder.process {
            self.processes.entry(process).or_default().push(connection);
        }
        self.connections.push(Connection {
            number: builder.number,
            identity: builder.identity.number(),
            startup: base,
            turns: begin..self.turns.len(),
            open: builder.open(),
            login: std::mem::take(&mut builder.login).finalize(),
            ending,
            is_left_at_password: builder.asks_for_password
                && builder.ends.is_empty()
                && builder.answers.is_empty(),
        });
        self.add_answers(builder.answers, &mut builder.requests.list);
        self.requests.append(builder.requests);
        self.waits.extend(builder.waits);
        notified.append(&mut builder.notified);
    }

    /// Adds the turns of the next connection.
    fn add_turns(&mut self, builder: &ConnectionBuilder) {
        let (base, connection) = (self.requests.len(), self.connections.len() as u32);
        for (range, is_whole) in turns_of(builder) {
            if let Some(snapshot) = builder.snapshots.get(&(range.end as u32 - 1)) {
                self.snapshots.insert(self.turns.len(), *snapshot);
            }
            let (begin, end) = ((base + range.start) as u32, (base + range.end) as u32);
            self.turns.push(Turn { connection, begin, end, is_whole });
        }
    }

    /// Adds the answers to the requests of a connection, in the order of those.
    fn add_answers(&mut self, mut answers: Vec<AnswerChunk>, requests: &mut [Request]) {
        if answers.windows(2).any(|pair| pair[0].request > pair[1].request) {
            answers.sort_by_key(|it| it.request);
        }
        let mut next = answers.iter().peekable();
        for (number, request) in requests.iter_mut().enumerate() {
            request.answer = self.answers.len() as u32;
            while let Some(answer) = next.next_if(|it| it.request as usize == number) {
                self.answers.push(answer.chunk);
            }
        }
    }

    /// Finds for each notification the message after which it came, where its sender is recorded.
    fn find_causes(&mut self, notified: &[RecordedNotification]) {
        for notified in notified {
            let senders = self.processes.get(&notified.process).into_iter().flatten();
            let request = senders.rev().find_map(|it| self.last_said(*it, notified.time));
            if let Some(cause) = request {
                self.waits.insert(notified.at, Wait::Request(cause));
                self.requests.list[cause].is_cause = true;
            }
        }
    }

    /// The last message of a connection up to a time.
    fn last_said(&self, connection: usize, time: u64) -> Option<usize> {
        let turns = &self.turns[self.connections[connection].turns.clone()];
        let range = turns.first()?.requests().start..turns.last()?.requests().end;
        let next = self.connections.get(connection + 1).map(|it| it.startup);
        self.requests.last_until(range, next, time)
    }
}

/// The turns of a connection after its Startup, and whether each is whole.
fn turns_of(builder: &ConnectionBuilder) -> Vec<(Range<usize>, bool)> {
    let (mut turns, mut begin, count) = (Vec::new(), 1, builder.requests.len());
    let is_over =
        |it: &&ExchangeEnd| it.status == b'I' || builder.snapshots.contains_key(&it.request);
    for end in builder.ends.iter().filter(is_over).map(|it| it.request as usize) {
        if end >= begin {
            turns.push((begin..end + 1, true));
            begin = end + 1;
        }
    }
    if begin < count {
        turns.push((begin..count, false));
    }
    turns
}

/// Marks where how many messages may be left out, of which the rules ignore some.
fn mark_ignored(ends: &[ExchangeEnd], ignored: &[u32], requests: &mut Requests) {
    let mut begin = 1;
    for end in ends.iter().map(|it| it.request) {
        if end < begin {
            continue;
        }
        let exchange = begin..end + 1;
        begin = end + 1;
        let before = |request: u32| ignored.partition_point(|it| *it < request);
        let count = before(exchange.end) - before(exchange.start);
        // A Sync ends the messages of the extended protocol, and is of no statement.
        let others = exchange.len() - count;
        if count > 0 && others <= usize::from(count > 1) {
            requests.set_ignored(exchange.start as usize, exchange.len());
        }
    }
}

/// Marks the Syncs of exchanges that only prepare statements as what does nothing else.
fn mark_preparing(ends: &[ExchangeEnd], requests: &mut [Request]) {
    let mut begin = 1;
    for end in ends.iter().map(|it| it.request as usize) {
        if end > begin && requests[begin..end].iter().all(|it| it.is_preparing) {
            requests[end].is_preparing = true;
        }
        begin = begin.max(end + 1);
    }
}
