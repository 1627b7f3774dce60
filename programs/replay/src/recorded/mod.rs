//! A recording as it is served: what each recorded client said, and what it heard of that.

mod answer_matcher;
mod answers;
mod chunk;
mod connection_builder;
mod loader;
mod message_splitter;
mod request_reader;
mod requests;
mod snapshots;

pub use answer_matcher::Wait;
pub use chunk::{Chunk, RereadError, Window};
pub use connection_builder::is_state_of_standby;
pub use loader::{load, plain};
pub use message_splitter::{MessageSlice, MessageSplitter};
pub use request_reader::RequestReader;
use requests::ClientChunk;
pub use requests::{ChunkOffset, CompareBy, Requests};

use crate::fingerprint::{Fingerprinter, Fingerprints};
use crate::rules::ReplayRules;
use crc32fast::Hasher;
use pgmsg::frontend::Message;
use std::collections::HashMap;
use std::fs::File;
use std::ops::Range;
use std::path::PathBuf;
use std::sync::Arc;

/// Longer messages are compared piece by piece, and have to be the very bytes that were recorded.
pub const MESSAGE_MOST: usize = 1 << 20;

/// How many bytes of answers are read at once, unless one part is longer.
const WINDOW_MOST: u64 = 64 << 10;

/// A message and its answer are read at once where they are so near.
const NEAR_MOST: u64 = 8 << 10;

/// The bytes of a tag and a length.
pub const HEAD: usize = 5;

/// How many messages are looked at for the statement of a difference.
const LOOKED_BACK: usize = 1000;

/// What a recording has, by which clients are answered.
pub struct Recording {
    pub path: PathBuf,
    file: File,
    pub fingerprints: Fingerprints,
    pub connections: Vec<Connection>,
    pub turns: Vec<Turn>,
    pub requests: Requests,
    /// What the server said, in the order of what it answers.
    answers: Vec<Chunk>,
    /// What parts of answers wait for, by their offsets.
    waits: HashMap<u64, Wait>,
    /// The turns after which a transaction goes on that reads what others read, with the number of the snapshot.
    snapshots: HashMap<usize, u32>,
    /// The offsets of the server's records, and when they passed, where that is wanted.
    times: Vec<(u64, u64)>,
    /// The connections by the process that a request to cancel names.
    pub processes: HashMap<u32, Vec<usize>>,
}

/// A recorded connection that begins with a Startup.
pub struct Connection {
    /// Its number in the recording.
    pub number: u32,
    /// What it is known by in others.
    pub identity: u64,
    /// Where its Startup is among the requests.
    pub startup: usize,
    pub turns: Range<usize>,
    /// When its client came and said the last of it, or when it was closed otherwise, in microseconds.
    pub open: Range<u64>,
    /// The checksum of what was heard of its Startup, without the key that each connection has of its own.
    pub login: u32,
    pub ending: ConnectionEnding,
    /// The server had asked for a password, and heard nothing more.
    pub is_left_at_password: bool,
}

/// How a recorded connection ends.
#[derive(Clone, Copy, Debug, PartialEq, Eq)]
pub enum ConnectionEnding {
    /// The client says so.
    Terminate,
    /// The client hangs up.
    ByClient,
    ByServer,
    /// The recording ends before, and the server had answered all, or hadn't.
    Unrecorded {
        is_idle: bool,
    },
}

/// What a client says from one time on when it is outside of a transaction up to the next: an exchange, or those of a
/// transaction. A transaction that reads what those of other connections read has several turns.
pub struct Turn {
    connection: u32,
    begin: u32,
    end: u32,
    /// Whether it was recorded to its end.
    pub is_whole: bool,
}

impl Turn {
    pub fn connection(&self) -> usize {
        self.connection as usize
    }

    pub fn requests(&self) -> Range<usize> {
        self.begin as usize..self.end as usize
    }
}

impl Recording {
    /// Whether it has but one session, whose order is the client's.
    pub fn is_single(&self) -> bool {
        self.connections.len() == 1
    }

    /// Whether a message may be said or left out wherever it is wanted: it prepares a statement, and there may be a pool.
    pub fn is_free(&self, request: usize) -> bool {
        self.requests.list[request].is_preparing && !self.is_single()
    }

    /// The snapshot that is read on after a turn, where a transaction goes on then.
    pub fn snapshot_after(&self, turn: usize) -> Option<u32> {
        self.snapshots.get(&turn).copied()
    }

    /// The snapshot that is read on by a turn, where it goes on a transaction.
    pub fn snapshot_of(&self, turn: usize) -> Option<u32> {
        let before = turn.checked_sub(1).filter(|_| !self.snapshots.is_empty())?;
        let is_first = self.turns[before].connection != self.turns[turn].connection;
        self.snapshot_after(before).filter(|_| !is_first)
    }

    /// Whether a recorded client left while it read a snapshot.
    pub fn is_left_open(&self, snapshot: u32) -> bool {
        let mut lasts = self.connections.iter().filter_map(|it| it.turns.clone().last());
        lasts.any(|it| self.snapshot_after(it) == Some(snapshot))
    }

    /// The last turn of the transaction of a turn, as far as it was recorded.
    pub fn last_of_transaction(&self, turn: usize) -> usize {
        let end = self.connections[self.turns[turn].connection()].turns.end;
        (turn..end).find(|it| self.snapshot_after(*it).is_none()).unwrap_or(end - 1)
    }

    /// The turn that a message is in.
    pub fn turn_of(&self, request: usize) -> usize {
        self.turns.partition_point(|it| it.requests().start <= request) - 1
    }

    /// The parts of the answer to a message.
    pub fn answer_of(&self, request: usize) -> Range<usize> {
        let begin = |request: usize| {
            self.requests.list.get(request).map_or(self.answers.len(), |it| it.answer as usize)
        };
        begin(request)..begin(request + 1)
    }

    /// What a part of an answer waits for.
    pub fn wait(&self, number: usize) -> Wait {
        match self.waits.is_empty() {
            true => Wait::No,
            false => self.waits.get(&self.answers[number].at()).copied().unwrap_or(Wait::No),
        }
    }

    /// When a part of an answer passed, in microseconds, where times are kept.
    pub fn answered_at(&self, number: usize) -> Option<u64> {
        let at = self.answers[number].at();
        let next = self.times.partition_point(|(record, _)| *record <= at);
        Some(self.times[next.checked_sub(1)?].1)
    }

    /// The bytes of a part of an answer, which are read with those after them that the server sent with it.
    pub fn answer_chunk<'w>(
        &self,
        number: usize,
        window: &'w mut Window,
    ) -> Result<&'w [u8], RereadError> {
        let chunk = &self.answers[number];
        let end = || {
            let (mut end, mut rest) = (chunk.end(), self.answers[number + 1..].iter());
            while let Some(next) =
                rest.next().filter(|it| it.at() == end && it.end() <= chunk.at() + WINDOW_MOST)
            {
                end = next.end();
            }
            end
        };
        window.chunk(chunk, end, &self.file)
    }

    /// Whether a message is the very one that was recorded, which is read with its answer where that is near.
    pub fn is_recorded(
        &self,
        request: usize,
        message: &[u8],
        window: &mut Window,
    ) -> Result<bool, RereadError> {
        let (mut place, mut rest) = (self.requests.list[request].at, message);
        while !rest.is_empty() {
            let Some(ClientChunk { chunk, .. }) = self.requests.chunks.get(place.chunk as usize)
            else {
                return Ok(false);
            };
            let end = || self.end_of_answer(request, chunk.at() + NEAR_MOST).unwrap_or(0);
            let bytes = &window.chunk(chunk, end, &self.file)?[place.at as usize..];
            let count = bytes.len().min(rest.len());
            if bytes[..count] != rest[..count] {
                return Ok(false);
            }
            rest = &rest[count..];
            place = ChunkOffset { chunk: place.chunk + 1, at: 0 };
        }
        Ok(true)
    }

    /// Where what is heard of a message and of those that the client said with it ends, if that is before an offset.
    fn end_of_answer(&self, request: usize, most: u64) -> Option<u64> {
        let (later, record) =
            (&self.requests.list[request..], self.requests.list[request].at.chunk);
        let count = later.iter().take_while(|it| it.at.chunk == record).count();
        let answers = self.answer_of(request).start..self.answer_of(request + count - 1).end;
        answers.last().map(|it| self.answers[it].end()).filter(|it| *it <= most)
    }

    /// The recorded bytes of a message: the whole of one of up to `MESSAGE_MOST` bytes, else its head.
    pub fn message(&self, request: usize) -> Result<Vec<u8>, RereadError> {
        self.message_at(
            self.requests.list[request].at,
            if request == 0 || self.is_startup(request) { 4 } else { HEAD },
        )
    }

    /// The number of the connection of a message.
    pub fn connection_of(&self, request: usize) -> u32 {
        let place = self.connections.partition_point(|it| it.startup <= request);
        self.connections[place.max(1) - 1].number
    }

    pub fn is_startup(&self, request: usize) -> bool {
        self.connections.iter().any(|it| it.startup == request)
    }

    /// The message at a place, whose length is in the last four bytes of its head.
    pub fn message_at(&self, place: ChunkOffset, head: usize) -> Result<Vec<u8>, RereadError> {
        let mut reader = RequestReader::new(place);
        let mut bytes = vec![0; head];
        reader.fill(self, &mut bytes)?;
        let length = bytes[head - 4..].iter().fold(0, |sum, byte| sum << 8 | usize::from(*byte));
        if length <= MESSAGE_MOST {
            bytes.resize(head - 4 + length.max(4), 0);
            reader.fill(self, &mut bytes[head..])?;
        }
        Ok(bytes)
    }

    /// Whether data begin with so many bytes of others, and go on with these; or end there, where there are none.
    pub fn begins_with(
        &self,
        request: usize,
        other: usize,
        passed: u64,
        next: &[u8],
    ) -> Result<bool, RereadError> {
        let CompareBy::Bytes(len) = self.requests.compare_by(request) else {
            return Ok(false);
        };
        let fits = match next.is_empty() {
            true => len == passed,
            false => len.checked_sub(passed).is_some_and(|it| it >= next.len() as u64),
        };
        if !fits {
            return Ok(false);
        }
        let (mut one, mut there) = (self.reader(request), self.reader(other));
        let mut left = usize::try_from(passed).unwrap_or(usize::MAX);
        while left > 0 {
            let (one_bytes, other_bytes) = (one.next(self)?, there.next(self)?);
            let count = one_bytes.len().min(other_bytes.len()).min(left);
            if count == 0 || one_bytes[..count] != other_bytes[..count] {
                return Ok(false);
            }
            one.pass(count);
            there.pass(count);
            left -= count;
        }
        let mut room = vec![0; next.len()];
        one.fill(self, &mut room)?;
        Ok(next == room)
    }

    /// The text of the statement that a recorded Bind names.
    pub fn statement_of(&self, request: usize) -> Option<Vec<u8>> {
        let message = self.message(request).ok()?;
        let Ok(Message::Bind(bind)) = Message::read_body(Some(message[0]), message.get(HEAD..)?)
        else {
            return None;
        };
        let begin = self.connections.iter().rev().find(|it| it.startup <= request)?.startup;
        let before = (begin + 1..request).rev().take(LOOKED_BACK);
        before
            .filter(|it| matches!(self.requests.compare_by(*it), CompareBy::Fingerprint(_)))
            .find_map(|it| {
                let message = self.message(it).ok()?;
                match Message::read_body(Some(message[0]), message.get(HEAD..)?) {
                    Ok(Message::Parse(parse)) if parse.statement == bind.statement => {
                        Some(parse.query.to_vec())
                    }
                    _ => None,
                }
            })
    }

    /// What knows the names that a recorded connection has before a message.
    pub fn fingerprinter_at(
        &self,
        request: usize,
        rules: &Arc<ReplayRules>,
    ) -> Result<Fingerprinter, RereadError> {
        let mut fingerprinter = Fingerprinter::new(rules.clone());
        let place = self.connections.partition_point(|it| it.startup < request);
        let turns = place.checked_sub(1).map_or(0..0, |it| self.connections[it].turns.clone());
        for number in turns.take_while(|it| self.turns[*it].requests().start < request) {
            let turn = &self.turns[number];
            for before in turn.requests().take_while(|it| *it < request) {
                if let CompareBy::Fingerprint(fingerprint) = self.requests.compare_by(before) {
                    let message = self.message(before)?;
                    fingerprinter.message(Some(message[0]), &message[HEAD..]);
                    fingerprinter.settle(fingerprint);
                }
            }
            let is_over = turn.is_whole && self.snapshot_after(number).is_none();
            if is_over && turn.requests().end <= request {
                fingerprinter.end_transaction();
            }
        }
        Ok(fingerprinter)
    }

    /// Where the recorded client rolled back by a message with a fingerprint, of some that it said one after the other, to a
    /// savepoint of the place that it had before them, if one is named: as long as that savepoint was there.
    pub fn undone(
        &self,
        ahead: Range<usize>,
        fingerprint: u32,
        savepoint: Option<usize>,
        rules: &Arc<ReplayRules>,
    ) -> Result<Option<usize>, RereadError> {
        let mut fingerprinter = self.fingerprinter_at(ahead.start, rules)?;
        for request in ahead {
            let CompareBy::Fingerprint(recorded) = self.requests.compare_by(request) else {
                continue;
            };
            if recorded == fingerprint {
                return Ok(Some(request));
            }
            let message = self.message(request)?;
            fingerprinter.message(Some(message[0]), &message[HEAD..]);
            fingerprinter.settle(recorded);
            if savepoint.is_some_and(|it| it >= fingerprinter.savepoints()) {
                break;
            }
        }
        Ok(None)
    }

    /// Reads what a client said from a message on.
    pub fn reader(&self, request: usize) -> RequestReader {
        RequestReader::new(self.requests.list[request].at)
    }

    /// The length and the checksum of what was heard of a message. Two that are the same in these are taken for the same.
    pub fn sum_of(&self, request: usize) -> u64 {
        let (mut sum, mut length) = (Hasher::new(), 0);
        for chunk in &self.answers[self.answer_of(request)] {
            sum.combine(&chunk.sum());
            length += chunk.len() as u64;
        }
        length << 32 | u64::from(sum.finalize())
    }

    /// Whether two connections were open at the same time, as those of a pool are.
    pub fn were_open_together(&self, one: usize, other: usize) -> bool {
        let (one, other) = (&self.connections[one].open, &self.connections[other].open);
        one.start < other.end && other.start < one.end
    }

    /// Whether the same was heard of two messages.
    pub fn is_same_answer(&self, one: usize, other: usize) -> Result<bool, RereadError> {
        let (one, other) = (self.answer_of(one), self.answer_of(other));
        let len = |range: &Range<usize>| {
            self.answers[range.clone()].iter().map(Chunk::len).sum::<usize>()
        };
        if len(&one) != len(&other) {
            return Ok(false);
        }
        Ok(one == other || self.answer(one)? == self.answer(other)?)
    }

    fn answer(&self, range: Range<usize>) -> Result<Vec<u8>, RereadError> {
        let (mut all, mut window) = (Vec::new(), Window::default());
        for number in range {
            all.extend_from_slice(self.answer_chunk(number, &mut window)?);
        }
        Ok(all)
    }
}
