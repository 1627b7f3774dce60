//! Which recorded turn a client gets. A session goes on with the next one of the connection that it follows. Where that
//! differs it takes another one that nobody had, of any connection, as long as all that it said and heard since it was
//! outside of a transaction is the same there. Between the turns of a transaction that reads a snapshot, it takes one of
//! another that reads the same.

mod choose;
mod claims;
mod ending;
mod rivals;
#[cfg(test)]
mod tests;

pub use claims::Claim;

use crate::recorded::{CompareBy, ConnectionEnding, Recording, RereadError};
use std::collections::{HashMap, HashSet};
use std::ops::Range;
use std::sync::Arc;

const HAS_SLOT: &str = "a session has a slot until it ends";

/// What the client of a connection has.
#[derive(Clone, Debug)]
struct Slot {
    /// The turn that comes next where all goes as recorded, which may be none of its connection any more.
    next: usize,
    /// The connection that it follows.
    connection: usize,
    turn: Option<usize>,
    /// The snapshot that it reads, where it is between the turns of a transaction.
    snapshot: Option<u32>,
    /// How many messages of the turn it has said.
    at: usize,
    /// It is within a message or data that are compared as bytes.
    is_busy: bool,
    /// The number of the last message.
    number: u32,
    cancels: u32,
    /// How many causes there were when it began.
    begun: u64,
    /// The turns that it took, where it may give them back.
    taken: Vec<usize>,
    /// It took turns of several connections.
    is_pooled: bool,
}

/// What becomes of a recorded connection.
#[derive(Clone, Debug, Default)]
struct ConnectionState {
    /// Of the client that said its Startup.
    slot: Option<Slot>,
    /// How many clients had it and are gone.
    rounds: usize,
    /// A client that had it did as recorded.
    is_replayed: bool,
    /// A client went on with a server in its place.
    is_renewed: bool,
}

/// The turns of a recording, and which clients have them.
pub struct Pool {
    recording: Arc<Recording>,
    again: bool,
    gives_back: bool,
    /// How often each turn was taken.
    uses: Vec<u32>,
    /// The sessions that are in a turn, by its number. A session has the number of its connection.
    holders: HashMap<usize, usize>,
    connections: Vec<ConnectionState>,
    /// Those connections can be taken that so many clients had, or fewer.
    round: usize,
    /// The turns in the order of the fingerprint of their first message, but for those that prepare statements.
    by_first: Vec<(u32, u32)>,
    /// Messages that prepare statements, by their fingerprints. Only the connections of a pool say them at other places.
    preparing: HashMap<u32, usize>,
    /// The fingerprints of messages that may have rivals.
    apart: HashSet<u32>,
    /// When messages were said that others wait for, by their count.
    causes: HashMap<usize, u64>,
    caused: u64,
    done: usize,
}

/// What becomes of a message.
#[derive(Clone, Copy, Debug, PartialEq, Eq)]
pub enum RequestMatch {
    Fits(MatchedRequest),
    /// It prepares a statement, which is answered as this message was, and nothing is passed by it.
    Prepares(usize),
    /// The recorded message that would be next, where there is one.
    Differs(Option<usize>),
}

/// A message that fits.
#[derive(Clone, Copy, Debug, PartialEq, Eq)]
pub struct MatchedRequest {
    pub request: usize,
    pub is_turn_over: bool,
    /// No transaction is open after it.
    pub is_idle: bool,
    /// The server hung up after it.
    pub hangs_up: bool,
    /// The recording ends after it, before the answer was whole.
    pub is_cut: bool,
    /// Another message that fits as well, and was answered otherwise.
    pub rival: Option<usize>,
}

/// What is expected of a session.
#[derive(Clone, Copy, Debug)]
pub struct ExpectedRequest {
    /// The recorded message that would be next.
    pub request: Option<usize>,
    /// The client can't end before it: within a turn, where the order is the recorded one, and between the turns of a
    /// transaction, unless a recorded client ended there.
    pub is_sure: bool,
    pub ending: ConnectionEnding,
    /// Whether something after the Startup is recorded.
    pub has_turns: bool,
    /// Its place: the number of its connection, and of the message in that.
    pub connection: u32,
    pub number: u32,
}

impl Pool {
    /// With `again`, what was replayed is replayed again, and then `any_order` needs no round to be over.
    /// With `gives_back`, a session that goes on with a server leaves what it took to others.
    pub fn new(recording: Arc<Recording>, again: bool, any_order: bool, gives_back: bool) -> Pool {
        let firsts = recording.turns.iter().enumerate().filter_map(|(number, turn)| {
            let first = turn.requests().find(|it| !recording.is_free(*it))?;
            match recording.requests.compare_by(first) {
                CompareBy::Fingerprint(fingerprint) => Some((fingerprint, number as u32)),
                CompareBy::Bytes(_) => None,
            }
        });
        let mut by_first = Vec::with_capacity(recording.turns.len());
        by_first.extend(firsts);
        by_first.sort_unstable();
        let preparing = (0..recording.requests.len())
            .filter(|it| recording.is_free(*it) && !recording.answer_of(*it).is_empty());
        let preparing = preparing.filter_map(|it| match recording.requests.compare_by(it) {
            CompareBy::Fingerprint(fingerprint) => Some((fingerprint, it)),
            CompareBy::Bytes(_) => None,
        });
        let preparing = preparing.collect();
        Pool {
            apart: rivals::fingerprints_apart(&recording),
            preparing,
            again,
            gives_back,
            uses: vec![0; recording.turns.len()],
            holders: HashMap::new(),
            connections: vec![ConnectionState::default(); recording.connections.len()],
            round: if again && any_order { usize::MAX } else { 0 },
            by_first,
            causes: HashMap::new(),
            caused: 0,
            done: 0,
            recording,
        }
    }

    /// Whether a turn can be taken.
    fn is_free(&self, turn: usize) -> bool {
        self.again || self.uses[turn] == 0
    }

    /// The turns that a session can take of those that come next on the connection that it follows.
    fn own<'p>(&'p self, slot: &'p Slot) -> impl Iterator<Item = usize> + 'p {
        let end = self.recording.connections[slot.connection].turns.end;
        let is_next = move |turn: &usize| {
            self.is_free(*turn) && self.recording.snapshot_of(*turn) == slot.snapshot
        };
        (slot.next..end).filter(is_next)
    }

    /// What is expected next.
    pub fn expected(&self, id: usize) -> ExpectedRequest {
        let (slot, home) = (self.slot(id), &self.recording.connections[id]);
        let request = match slot.turn {
            Some(turn) => Some(self.recording.turns[turn].requests().start + slot.at)
                .filter(|it| *it < self.recording.turns[turn].requests().end),
            None => self.own(slot).next().map(|turn| self.recording.turns[turn].requests().start),
        };
        let has_to_go_on = slot.snapshot.is_some_and(|it| !self.recording.is_left_open(it));
        ExpectedRequest {
            request,
            is_sure: slot.turn.is_some() || self.recording.is_single() || has_to_go_on,
            ending: home.ending,
            has_turns: !home.turns.is_empty(),
            connection: self.recording.connections[slot.connection].number,
            number: request.map_or(slot.number + 1, |it| self.recording.requests.number(it)),
        }
    }

    /// Whether what a client has begun goes on with a message with a fingerprint.
    pub fn goes_on_with(&self, id: usize, fingerprint: u32) -> bool {
        let next = self.expected(id).request.filter(|_| self.slot(id).turn.is_some());
        next.is_some_and(
            |it| matches!(self.recording.requests.compare_by(it), CompareBy::Fingerprint(it) if it == fingerprint),
        )
    }

    /// Takes a message by the number of its fingerprint.
    pub fn step(&mut self, id: usize, fingerprint: u32) -> Result<RequestMatch, RereadError> {
        let is_next = match self.slot(id).turn {
            Some(turn) => self.pass(id, turn, fingerprint),
            None => self.take_turn(id, fingerprint),
        };
        if is_next {
            return self.fits(id);
        }
        if let Some(request) = self.preparing.get(&fingerprint) {
            return Ok(RequestMatch::Prepares(*request));
        }
        match self.choose_again(id, fingerprint)? {
            true => self.fits(id),
            false => Ok(RequestMatch::Differs(self.expected(id).request)),
        }
    }

    /// Takes the message that a session is at.
    fn fits(&mut self, id: usize) -> Result<RequestMatch, RereadError> {
        let rival = self.rival(id)?;
        Ok(RequestMatch::Fits(MatchedRequest { rival, ..self.advance(id) }))
    }

    /// The place in a turn, from one on, of a message with a fingerprint: the next one, or the first one after those that may be
    /// left out.
    fn find(&self, turn: usize, from: usize, fingerprint: u32) -> Option<usize> {
        let range = self.recording.turns[turn].requests();
        let mut at = range.start + from;
        while at < range.end {
            if self.recording.requests.compare_by(at) == CompareBy::Fingerprint(fingerprint) {
                return Some(at - range.start);
            }
            match self.recording.requests.ignored(at) {
                0 if self.recording.is_free(at) => at += 1,
                0 => return None,
                count => at += count as usize,
            }
        }
        None
    }

    /// Goes to the next message of a turn that has a fingerprint, where that may be.
    fn pass(&mut self, id: usize, turn: usize, fingerprint: u32) -> bool {
        let found = self.find(turn, self.slot(id).at, fingerprint);
        if let Some(at) = found {
            self.slot_mut(id).at = at;
        }
        found.is_some()
    }

    fn slot(&self, id: usize) -> &Slot {
        self.connections[id].slot.as_ref().expect(HAS_SLOT)
    }

    fn slot_mut(&mut self, id: usize) -> &mut Slot {
        self.connections[id].slot.as_mut().expect(HAS_SLOT)
    }

    /// Begins a turn whose first message has a fingerprint.
    fn take_turn(&mut self, id: usize, fingerprint: u32) -> bool {
        let slot = self.slot(id);
        let begins = |turn: &usize| self.find(*turn, 0, fingerprint).is_some();
        let own = self.own(slot).find(|turn| begins(turn) || !self.may_be_left_out(*turn));
        let jumps = !self.recording.is_single() && !self.preparing.contains_key(&fingerprint);
        let found = own.filter(begins).or_else(|| {
            if jumps {
                self.first_of(fingerprint, slot.snapshot)
            } else {
                None
            }
        });
        let at = found.and_then(|turn| self.find(turn, 0, fingerprint));
        if let (Some(turn), Some(at)) = (found, at) {
            if found != own {
                self.note_jump(id, turn);
            }
            self.hold(id, turn, at);
        }
        at.is_some()
    }

    /// Whether all of a turn may be left out.
    fn may_be_left_out(&self, turn: usize) -> bool {
        let range = self.recording.turns[turn].requests();
        self.recording.requests.ignored(range.start) as usize == range.len()
            || range.into_iter().all(|it| self.recording.is_free(it))
    }

    /// The turn that begins with a fingerprint and reads a snapshot, or none, of those that were taken most seldom.
    fn first_of(&self, fingerprint: u32, snapshot: Option<u32>) -> Option<usize> {
        let mut alike = self.alike(fingerprint, snapshot);
        match self.again {
            true => alike.min_by_key(|turn| self.uses[*turn]),
            false => alike.find(|turn| self.is_free(*turn)),
        }
    }

    /// The turns that begin with a fingerprint and read a snapshot, or none, in their order.
    fn alike(&self, fingerprint: u32, snapshot: Option<u32>) -> impl Iterator<Item = usize> + '_ {
        let begin = self.by_first.partition_point(|(it, _)| *it < fingerprint);
        let alike = self.by_first[begin..].iter().take_while(move |(it, _)| *it == fingerprint);
        let alike = alike.map(|(_, turn)| *turn as usize);
        alike.filter(move |turn| self.recording.snapshot_of(*turn) == snapshot)
    }

    fn hold(&mut self, id: usize, turn: usize, at: usize) {
        self.uses[turn] += 1;
        self.holders.insert(turn, id);
        let gives_back = self.gives_back;
        let slot = self.slot_mut(id);
        slot.turn = Some(turn);
        slot.at = at;
        if gives_back {
            slot.taken.push(turn);
        }
    }

    /// Goes on after a message that fits.
    fn advance(&mut self, id: usize) -> MatchedRequest {
        let recording = &*self.recording;
        let slot = self.connections[id].slot.as_mut().expect(HAS_SLOT);
        let turn = slot.turn.unwrap_or_default();
        let recorded = &recording.turns[turn];
        let request = recorded.requests().start + slot.at;
        slot.at += 1;
        slot.is_busy = false;
        slot.connection = recorded.connection();
        slot.next = turn + 1;
        slot.number = recording.requests.number(request);
        let connection = &recording.connections[recorded.connection()];
        let is_last = request + 1 == recorded.requests().end;
        let is_end = is_last && turn + 1 == connection.turns.end;
        let is_turn_over = is_last && recorded.is_whole;
        if is_turn_over {
            slot.turn = None;
            slot.snapshot = recording.snapshot_after(turn);
            self.holders.remove(&turn);
        }
        if recording.requests.list[request].is_cause {
            self.caused += 1;
            self.causes.insert(request, self.caused);
        }
        MatchedRequest {
            request,
            is_turn_over,
            is_idle: is_turn_over && recording.snapshot_after(turn).is_none(),
            hangs_up: is_end && connection.ending == ConnectionEnding::ByServer,
            is_cut: is_end && connection.ending == ConnectionEnding::Unrecorded { is_idle: false },
            rival: None,
        }
    }

    /// What is recorded of the transaction at hand from the message on that would be next.
    pub fn ahead(&self, id: usize) -> Range<usize> {
        let slot = self.slot(id);
        let begun = slot.turn.map(|turn| (turn, slot.at));
        let next = || slot.snapshot.and_then(|_| self.own(slot).next()).map(|turn| (turn, 0));
        let Some((turn, at)) = begun.or_else(next) else {
            return 0..0;
        };
        let last = self.recording.last_of_transaction(turn);
        self.recording.turns[turn].requests().start + at..self.recording.turns[last].requests().end
    }

    /// Takes a message that is ahead, and leaves out those before it.
    pub fn skip_to(&mut self, id: usize, request: usize) -> MatchedRequest {
        let (turn, left) = (self.recording.turn_of(request), self.slot(id).turn);
        if left != Some(turn) {
            self.holders.retain(|_, holder| *holder != id);
            self.hold(id, turn, 0);
        }
        self.slot_mut(id).at = request - self.recording.turns[turn].requests().start;
        self.advance(id)
    }

    /// Begins with data or a long message, where the recorded client does so next.
    pub fn begin_bytes(&mut self, id: usize) -> Option<usize> {
        let request = self
            .expected(id)
            .request
            .filter(|it| matches!(self.recording.requests.compare_by(*it), CompareBy::Bytes(_)))?;
        if self.slot(id).turn.is_none() {
            let turn = self.own(self.slot(id)).next()?;
            self.hold(id, turn, 0);
        }
        self.slot_mut(id).is_busy = true;
        Some(request)
    }

    /// Ends them.
    pub fn end_bytes(&mut self, id: usize) -> MatchedRequest {
        self.advance(id)
    }

    /// Whether a message was said since a session began.
    pub fn is_said(&self, id: usize, request: usize) -> bool {
        self.causes.get(&request).copied().unwrap_or(0) > self.slot(id).begun
    }

    /// Takes a request to cancel what the sessions of a process do, of which there are several where its number was used
    /// again, or recordings were joined. Answers whether there is one.
    pub fn cancel(&mut self, process: u32) -> bool {
        let mut is_any = false;
        for connection in self.recording.processes.get(&process).into_iter().flatten() {
            if let Some(slot) = &mut self.connections[*connection].slot {
                slot.cancels += 1;
                is_any = true;
            }
        }
        is_any
    }

    /// Whether a request to cancel has come, which is used up by that.
    pub fn take_cancel(&mut self, id: usize) -> bool {
        let slot = self.slot_mut(id);
        let has_come = slot.cancels > 0;
        slot.cancels -= u32::from(has_come);
        has_come
    }
}
