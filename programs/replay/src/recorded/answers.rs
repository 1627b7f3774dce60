//! What the server of a recorded connection said: where it belongs, and what it waits for.

use super::answer_matcher::{AnswerTarget, Wait};
use super::connection_builder::{ConnectionBuilder, RecordBytes, RecordedNotification};
use super::message_splitter::{MessageSlice, MessageSplitter};
use super::{Chunk, HEAD};
use pgmsg::backend::{BackendKeyData, FieldKind, Fields, NotificationResponse};
use std::collections::HashMap;
use std::ops::Range;

/// The states of errors that come after a time.
const TIMED: [&[u8]; 6] = [b"57014", b"55P03", b"57P05", b"25P03", b"25P04", b"57P01"];
/// The method of an Authentication that asks for nothing.
const METHOD_OK: [u8; 4] = [0; 4];

impl ConnectionBuilder {
    /// Takes what the server said. `cancelled` has the last request to cancel for each process.
    pub fn take_server(&mut self, bytes: RecordBytes<'_>, cancelled: &HashMap<u32, u64>) {
        self.has_heard = true;
        let (mut rest, all) = (bytes.content, bytes.content.len());
        let mut taking = ServerRecord { bytes, open: None, cancelled };
        let mut server = std::mem::replace(&mut self.server, MessageSplitter::of_server());
        loop {
            let begin = all - rest.len();
            let cut = server.cut(&mut rest);
            let end = all - rest.len();
            match cut {
                Ok(Some(MessageSlice::Whole(message))) => {
                    self.take_whole(&mut taking, message, begin..end)
                }
                Ok(Some(MessageSlice::Part(part, left))) => {
                    self.take_part(&mut taking, part[0], begin..end, left == 0)
                }
                Ok(None) => {
                    self.pending.extend((begin < all).then(|| taking.chunk(begin..all)));
                    break;
                }
                Err(_) => {
                    self.close(&mut taking);
                    self.hear_broken(taking.chunk(begin..all));
                    break;
                }
            }
        }
        self.close(&mut taking);
        self.server = server;
    }

    /// Takes a message, or the rest of one, at a place of a record.
    fn take_whole(&mut self, taking: &mut ServerRecord<'_>, message: &[u8], range: Range<usize>) {
        let (time, cancelled) = (taking.bytes.time, taking.cancelled);
        let place = self.place(message[0], &message[HEAD..], time, cancelled);
        if self.ends.is_empty() && place.is_some() && message[0] != b'K' {
            self.login.update(message);
        }
        let is_rest = !self.pending.is_empty();
        if is_rest || !extends(&mut taking.open, place, range.start, range.end) {
            self.close(taking);
            self.hear(place);
            let place = place.map(|it| if is_rest { rest_of(it) } else { it });
            taking.open = place.map(|it| (it, range.start, range.end));
        }
    }

    /// Takes a part of a long message, which the first byte of its first part is the tag of.
    fn take_part(
        &mut self,
        taking: &mut ServerRecord<'_>,
        tag: u8,
        range: Range<usize>,
        is_last: bool,
    ) {
        self.close(taking);
        let tag = *self.long_tag.get_or_insert(tag);
        self.pending.push(taking.chunk(range));
        if is_last {
            self.long_tag = None;
            let place = self.place(tag, &[], taking.bytes.time, taking.cancelled);
            self.hear(place);
        }
    }

    /// Adds what is no message as it came, to what is heard of the last one.
    fn hear_broken(&mut self, chunk: (Chunk, u64)) {
        self.pending.push(chunk);
        let last = self.requests.len().saturating_sub(1);
        self.hear(Some((AnswerTarget::Request(last), Wait::No)));
    }

    /// Adds bytes that belong together.
    fn close(&mut self, taking: &mut ServerRecord<'_>) {
        if let Some((place, begin, end)) = taking.open.take() {
            let before = std::mem::take(&mut self.pending);
            self.pending.push(taking.chunk(begin..end));
            self.hear(Some(place));
            self.pending = before;
        }
    }

    /// Adds what is pending, or drops it where it has no place.
    fn hear(&mut self, place: Option<(AnswerTarget, Wait)>) {
        let pending = std::mem::take(&mut self.pending);
        let Some((target, wait)) = place else {
            return;
        };
        let mut place = (target, wait);
        for (chunk, time) in pending {
            let wait = place.1;
            place = rest_of(place);
            match target {
                AnswerTarget::Held => self.held.push(chunk),
                AnswerTarget::Request(request) | AnswerTarget::After(request)
                    if request < self.requests.len() =>
                {
                    self.hear_of(request, chunk)
                }
                AnswerTarget::Request(_) | AnswerTarget::After(_) => return,
            }
            match wait {
                Wait::No => {}
                Wait::Request(process) => self.notified.push(RecordedNotification {
                    at: chunk.at(),
                    process: process as u32,
                    time,
                }),
                wait => drop(self.waits.insert(chunk.at(), wait)),
            }
        }
    }

    /// Where a server's message belongs, and what it waits for. Requests for a password have no place.
    fn place(
        &mut self,
        tag: u8,
        body: &[u8],
        time: u64,
        cancelled: &HashMap<u32, u64>,
    ) -> Option<(AnswerTarget, Wait)> {
        if tag == b'R' && body.len() >= METHOD_OK.len() && !body.starts_with(&METHOD_OK) {
            self.asks_for_password = true;
            return None;
        }
        let target = self.matcher.answer(tag, body);
        match tag {
            b'K' => self.process = BackendKeyData::read(body).ok().map(|it| it.process_id),
            b'W' => self.open_both(target),
            b'Z' => self.end_exchange(target, body),
            b'E' => self.note_error(target),
            _ => {}
        }
        Some((target, self.wait(tag, body, target, time, cancelled)))
    }

    fn note_error(&mut self, target: AnswerTarget) {
        if let AnswerTarget::Request(request) = target {
            self.requests.list[request].is_preparing = false;
        }
    }

    fn open_both(&mut self, target: AnswerTarget) {
        if let AnswerTarget::Request(request) = target {
            self.requests.list[request].opens_both = true;
        }
    }

    fn end_exchange(&mut self, target: AnswerTarget, body: &[u8]) {
        let status = body.first().copied().unwrap_or(b'I');
        match target {
            AnswerTarget::Request(request) => self.add_end(request, status),
            AnswerTarget::Held => self.held_status = Some(status),
            AnswerTarget::After(_) => {}
        }
    }

    fn wait(
        &self,
        tag: u8,
        body: &[u8],
        target: AnswerTarget,
        time: u64,
        cancelled: &HashMap<u32, u64>,
    ) -> Wait {
        let asked_at = match target {
            AnswerTarget::Request(request) | AnswerTarget::After(request)
                if request < self.requests.len() =>
            {
                self.requests.time(request)
            }
            AnswerTarget::Request(_) | AnswerTarget::After(_) => 0,
            AnswerTarget::Held => return Wait::No,
        };
        let is_by_itself = matches!(target, AnswerTarget::After(_));
        match tag {
            // Whose it is is known once all connections are.
            b'A' => match NotificationResponse::read(body) {
                Ok(it) if Some(it.process_id) != self.process => {
                    Wait::Request(it.process_id as usize)
                }
                _ => Wait::No,
            },
            b'E' => {
                let code = code_of(body);
                let is_cancelled = self
                    .process
                    .and_then(|it| cancelled.get(&it))
                    .is_some_and(|at| *at >= asked_at);
                match code {
                    b"57014" if is_cancelled => Wait::Cancel,
                    code if is_by_itself || TIMED.contains(&code) => Wait::Time(
                        ((time.saturating_sub(asked_at)) / 1000).min(u64::from(u32::MAX)) as u32,
                    ),
                    _ => Wait::No,
                }
            }
            _ => Wait::No,
        }
    }
}

/// A record of the server that is taken.
struct ServerRecord<'b> {
    bytes: RecordBytes<'b>,
    open: Option<OpenAnswer>,
    /// The last request to cancel for each process.
    cancelled: &'b HashMap<u32, u64>,
}

impl ServerRecord<'_> {
    /// A part of it, and its time.
    fn chunk(&self, range: Range<usize>) -> (Chunk, u64) {
        let at = self.bytes.at + range.start as u64;
        (Chunk::of(&self.bytes.content[range], at), self.bytes.time)
    }
}

/// Bytes of a record that belong together: where, and from where to where.
type OpenAnswer = ((AnswerTarget, Wait), usize, usize);

/// Whether a message goes on what is open, which it extends then.
fn extends(
    open: &mut Option<OpenAnswer>,
    place: Option<(AnswerTarget, Wait)>,
    begin: usize,
    end: usize,
) -> bool {
    match (open, place) {
        (Some((own, _, last)), Some(place))
            if *last == begin && own.0 == place.0 && place.1 == Wait::No =>
        {
            // What waits for another client's message isn't waited for by what follows.
            let is_one = !matches!(own.1, Wait::Request(_));
            if is_one {
                *last = end;
            }
            is_one
        }
        _ => false,
    }
}

/// What the rest of a message waits for: it comes with its front.
fn rest_of((target, wait): (AnswerTarget, Wait)) -> (AnswerTarget, Wait) {
    match wait {
        Wait::Request(_) => (target, wait),
        _ => (target, Wait::No),
    }
}

/// The SQLSTATE of an error.
fn code_of(body: &[u8]) -> &[u8] {
    let code = Fields::read(body).ok().and_then(|fields| fields.value(FieldKind::Code));
    code.unwrap_or_default().0
}
