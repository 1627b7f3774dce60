//! What clients said, message by message. A recording has millions of them, so that each takes little room, and what only
//! few of them have is kept beside.

use super::chunk::Chunk;
use std::collections::HashMap;
use std::ops::Range;

/// The fingerprint of what is compared by its bytes.
const BYTES: u32 = u32::MAX - 1;

/// What is compared.
#[derive(Clone, Copy, Debug, PartialEq, Eq)]
pub enum CompareBy {
    /// A message, by the number of its fingerprint.
    Fingerprint(u32),
    /// Messages of a COPY's data, or a long message, by their bytes.
    Bytes(u64),
}

/// A place in what clients said: so many bytes of a chunk are before it.
#[derive(Clone, Copy, Debug, Default, PartialEq, Eq)]
pub struct ChunkOffset {
    pub(super) chunk: u32,
    pub(super) at: u32,
}

/// The bytes of a client's record, and when they passed, in microseconds.
#[derive(Clone, Copy, Debug)]
pub struct ClientChunk {
    pub(super) chunk: Chunk,
    pub(super) time: u64,
}

/// A message of a client, or a run of data.
#[derive(Clone, Debug)]
pub struct Request {
    fingerprint: u32,
    /// Where its bytes begin.
    pub(super) at: ChunkOffset,
    /// How many parts of answers are before those that are heard of it.
    pub(super) answer: u32,
    /// The recorded client said more before it heard anything.
    pub goes_on: bool,
    /// Data both ways follow, of a replication.
    pub opens_both: bool,
    /// Whether a message heard elsewhere waits for it.
    pub is_cause: bool,
    /// It prepares a statement, describes or closes it: a connection of a pool does so when it needs one first.
    pub is_preparing: bool,
}

impl Request {
    pub(super) fn new(fingerprint: u32, at: ChunkOffset) -> Request {
        Request {
            fingerprint,
            at,
            answer: 0,
            goes_on: false,
            opens_both: false,
            is_cause: false,
            is_preparing: false,
        }
    }
}

/// What few messages have.
#[derive(Clone, Copy, Debug, Default)]
struct RequestExtras {
    /// How many bytes are compared.
    bytes: u64,
    /// When the last of its bytes passed, where that was after the first.
    ended: Option<u64>,
    /// How many messages may be left out from it on, of an exchange that the rules ignore.
    ignored: u32,
}

/// Messages of clients, by their places in all.
#[derive(Default)]
pub struct Requests {
    pub list: Vec<Request>,
    /// What the clients said, record by record.
    pub(super) chunks: Vec<ClientChunk>,
    extras: HashMap<u32, RequestExtras>,
    /// The numbers of messages in their connections, where they aren't one more than that of the message before.
    numbers: Vec<(u32, u32)>,
}

impl Requests {
    pub fn len(&self) -> usize {
        self.list.len()
    }

    pub fn is_empty(&self) -> bool {
        self.list.is_empty()
    }

    /// What is compared of a message.
    pub fn compare_by(&self, request: usize) -> CompareBy {
        match self.list[request].fingerprint {
            BYTES => CompareBy::Bytes(self.extras(request).bytes),
            fingerprint => CompareBy::Fingerprint(fingerprint),
        }
    }

    /// The number of a message in its connection, from 1 on.
    pub fn number(&self, request: usize) -> u32 {
        let place = self.numbers.partition_point(|(it, _)| *it as usize <= request);
        let (first, number) = place.checked_sub(1).map_or((0, 0), |it| self.numbers[it]);
        number + (request as u32 - first)
    }

    /// When a message was whole, in microseconds.
    pub fn time(&self, request: usize) -> u64 {
        self.extras(request)
            .ended
            .unwrap_or_else(|| self.chunks[self.list[request].at.chunk as usize].time)
    }

    /// How many messages may be left out from one on, of an exchange that the rules ignore.
    pub fn ignored(&self, request: usize) -> u32 {
        self.extras(request).ignored
    }

    fn extras(&self, request: usize) -> RequestExtras {
        match self.extras.is_empty() {
            true => RequestExtras::default(),
            false => self.extras.get(&(request as u32)).copied().unwrap_or_default(),
        }
    }

    fn extras_mut(&mut self, request: usize) -> &mut RequestExtras {
        self.extras.entry(request as u32).or_default()
    }

    /// Makes room for so many messages and records.
    pub(super) fn reserve(&mut self, messages: usize, records: usize) {
        self.list.reserve_exact(messages);
        self.chunks.reserve_exact(records);
    }

    /// How many records of clients there are.
    pub(super) fn records(&self) -> usize {
        self.chunks.len()
    }

    /// The last message up to a time of those of a connection, after which another begins with that message.
    pub(super) fn last_until(
        &self,
        range: Range<usize>,
        next: Option<usize>,
        time: u64,
    ) -> Option<usize> {
        let chunk = |request: usize| self.list[request].at.chunk as usize;
        let records = chunk(range.start)..next.map_or(self.chunks.len(), chunk);
        let record =
            records.start + self.chunks[records.clone()].partition_point(|it| it.time <= time);
        let begun = range.start
            + self.list[range.clone()].partition_point(|it| (it.at.chunk as usize) < record);
        // The last of them may not have been whole then.
        (range.start..begun).rev().find(|it| self.time(*it) <= time)
    }

    /// Adds a message that begins at a place, has this number, and is whole with the last record.
    pub(super) fn push(&mut self, compare_by: CompareBy, at: ChunkOffset, number: u32) {
        let request = self.list.len();
        if request == 0 || self.number(request) != number {
            self.numbers.push((request as u32, number));
        }
        match compare_by {
            CompareBy::Fingerprint(fingerprint) => self.list.push(Request::new(fingerprint, at)),
            CompareBy::Bytes(count) => {
                self.list.push(Request::new(BYTES, at));
                self.extras_mut(request).bytes = count;
            }
        }
        self.end_last();
    }

    /// Adds bytes of the last record to the last message.
    pub(super) fn extend_last(&mut self, count: u64) {
        let last = self.list.len() - 1;
        self.extras_mut(last).bytes += count;
        self.end_last();
    }

    /// Ends the last message with the last record.
    fn end_last(&mut self) {
        let (last, record) = (self.list.len() - 1, self.chunks.len() - 1);
        if self.list[last].at.chunk as usize != record {
            self.extras_mut(last).ended = Some(self.chunks[record].time);
        }
    }

    pub(super) fn set_fingerprint(&mut self, request: usize, fingerprint: u32) {
        self.list[request].fingerprint = fingerprint;
    }

    pub(super) fn set_ignored(&mut self, request: usize, count: usize) {
        self.extras_mut(request).ignored = count as u32;
    }

    /// Adds the messages of another connection after these, and what was said of them.
    pub(super) fn append(&mut self, mut other: Requests) {
        let (before, chunks) = (self.list.len() as u32, self.chunks.len() as u32);
        other.list.iter_mut().for_each(|it| it.at.chunk += chunks);
        self.list.append(&mut other.list);
        self.chunks.append(&mut other.chunks);
        self.numbers.extend(other.numbers.into_iter().map(|(it, number)| (before + it, number)));
        self.extras.extend(other.extras.into_iter().map(|(it, extras)| (before + it, extras)));
    }
}
