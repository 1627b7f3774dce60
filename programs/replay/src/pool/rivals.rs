//! Recorded messages that fit as well as the one which a client gets, and that were answered otherwise: nothing that it said
//! tells which of them it means.
//!
//! A message of the connection that a client follows has its place in the order in which that was recorded. One of another
//! connection with the same Startup is its rival where all of its turn up to it was said and heard alike, no client has had
//! it, and either could be this client's:
//!
//! - Both connections were open at the same time, or the client has already taken turns of several connections: they are
//!   those of a pool, whose turns can be had in any order. The first of a connection that fits is its rival.
//! - Else a connection is one client's, and its message is a rival where all before it was said and heard alike, too.
//!
//! Where the same place of the other connection was answered alike, clients that do the same have these connections.

use super::{Pool, HAS_SLOT};
use crate::recorded::{CompareBy, Recording, RereadError};
use std::collections::HashSet;
use std::ops::Range;

/// What is known of the messages with a fingerprint.
struct FingerprintAnswers {
    /// The connection of the first, and its answer.
    connection: usize,
    sum: u64,
    is_of_others: bool,
    is_apart: bool,
}

/// The fingerprints that several connections said, and that weren't always answered alike.
pub(super) fn fingerprints_apart(recording: &Recording) -> HashSet<u32> {
    let mut seen: Vec<Option<FingerprintAnswers>> = Vec::new();
    if !recording.is_single() {
        seen.resize_with(recording.fingerprints.len(), || None);
    }
    let ends =
        recording.connections.iter().skip(1).map(|it| it.startup).chain([recording.requests.len()]);
    for ((number, connection), end) in recording.connections.iter().enumerate().zip(ends) {
        for request in connection.startup..end {
            let is_login = request == connection.startup;
            let sum = if is_login { connection.login.into() } else { recording.sum_of(request) };
            note(&mut seen, recording.requests.compare_by(request), number, sum);
        }
    }
    let is_apart = |it: &FingerprintAnswers| it.is_apart && it.is_of_others;
    let apart = seen.iter().zip(0..).filter(|(it, _)| it.as_ref().is_some_and(is_apart));
    apart.map(|(_, fingerprint)| fingerprint).collect()
}

fn note(
    seen: &mut [Option<FingerprintAnswers>],
    compare_by: CompareBy,
    connection: usize,
    sum: u64,
) {
    let CompareBy::Fingerprint(fingerprint) = compare_by else {
        return;
    };
    match seen.get_mut(fingerprint as usize) {
        Some(Some(first)) => {
            first.is_of_others |= first.connection != connection;
            first.is_apart |= first.sum != sum;
        }
        Some(none) => {
            *none =
                Some(FingerprintAnswers { connection, sum, is_of_others: false, is_apart: false })
        }
        None => {}
    }
}

impl Pool {
    /// Has no rival of a message with the fingerprint of this one be found any more.
    pub fn pass_over_rivals(&mut self, request: usize) {
        if let CompareBy::Fingerprint(fingerprint) = self.recording.requests.compare_by(request) {
            self.apart.remove(&fingerprint);
        }
    }

    fn is_apart(&self, request: usize) -> bool {
        let compare_by = self.recording.requests.compare_by(request);
        matches!(compare_by, CompareBy::Fingerprint(it) if self.apart.contains(&it))
    }

    /// Another free connection with the Startup of the one that a client has, where that was answered otherwise.
    pub fn rival_of_login(&self, connection: usize) -> Option<usize> {
        let of = |connection: usize| &self.recording.connections[connection];
        let startup = of(connection).startup;
        let mut free = self.free().filter(|_| self.is_apart(startup));
        let is_rival = |it: &usize| {
            self.recording.requests.compare_by(of(*it).startup)
                == self.recording.requests.compare_by(startup)
                && of(*it).login != of(connection).login
        };
        free.find(is_rival).map(|it| of(it).startup)
    }

    /// Another message that prepares a statement as this one, where that was answered otherwise.
    pub fn rival_of_preparing(&self, request: usize) -> Option<usize> {
        let (compare_by, sum) =
            (self.recording.requests.compare_by(request), self.recording.sum_of(request));
        let mut all = (0..self.recording.requests.len()).filter(|_| self.is_apart(request));
        all.find(|it| {
            self.recording.requests.compare_by(*it) == compare_by
                && self.recording.sum_of(*it) != sum
        })
    }

    /// The rival of the message that a session is at.
    pub(super) fn rival(&self, id: usize) -> Result<Option<usize>, RereadError> {
        let slot = self.slot(id);
        let turn = slot.turn.expect(HAS_SLOT);
        let request = self.recording.turns[turn].requests().start + slot.at;
        if !self.is_apart(request) || self.recording.is_free(request) {
            return Ok(None);
        }
        let count = self.passed(turn, slot.at + 1);
        for there in 0..self.recording.connections.len() {
            let rival = match self.is_like(id, turn, there) {
                true => self.rival_in(id, turn, there, count)?,
                false => None,
            };
            if rival.is_some() {
                return Ok(rival);
            }
        }
        Ok(None)
    }

    /// Whether a connection isn't that of a turn, and begins as that of a session.
    fn is_like(&self, id: usize, turn: usize, there: usize) -> bool {
        let startup =
            |it: usize| self.recording.requests.compare_by(self.recording.connections[it].startup);
        self.recording.turns[turn].connection() != there && startup(id) == startup(there)
    }

    /// The turns of a connection that begin as one, and read the same snapshot, or none.
    fn alike_in(&self, there: usize, turn: usize) -> impl Iterator<Item = usize> + '_ {
        let turns = &self.recording.connections[there].turns;
        let all = match self.core(turn).next().map(|it| self.recording.requests.compare_by(it)) {
            Some(CompareBy::Fingerprint(fingerprint)) => {
                let place = |turn: usize| {
                    self.by_first.partition_point(|it| *it < (fingerprint, turn as u32))
                };
                &self.by_first[place(turns.start)..place(turns.end)]
            }
            _ => &[],
        };
        let snapshot = self.recording.snapshot_of(turn);
        let all = all.iter().map(|(_, it)| *it as usize);
        all.filter(move |it| self.recording.snapshot_of(*it) == snapshot)
    }

    /// Whether a turn is of a connection, and begins as another one that reads the same snapshot, or none.
    fn begins_alike(&self, there: usize, turn: usize, other: usize) -> bool {
        let begin = |it: usize| {
            let first = self.core(it).next().map(|it| self.recording.requests.compare_by(it));
            first
                .filter(|it| matches!(it, CompareBy::Fingerprint(_)))
                .zip(Some(self.recording.snapshot_of(it)))
        };
        let turns = &self.recording.connections[there].turns;
        turns.contains(&other) && begin(turn).is_some() && begin(turn) == begin(other)
    }

    /// The rival among turns of another connection, of which so many messages that none may leave out are looked at.
    fn rival_in(
        &self,
        id: usize,
        turn: usize,
        there: usize,
        count: usize,
    ) -> Result<Option<usize>, RereadError> {
        let own = self.recording.turns[turn].connection();
        let sum = self.core(turn).nth(count - 1).map(|it| self.recording.sum_of(it));
        let same_place = self.begin_of(there) + (turn - self.begin_of(own));
        let same_place = Some(same_place).filter(|it| self.begins_alike(there, turn, *it));
        if let Some(other) = same_place {
            let answered = self.alike_until(turn, other, count)?;
            if answered.is_some_and(|it| Some(self.recording.sum_of(it)) == sum) {
                return Ok(None);
            }
        }
        let is_pooled = self.slot(id).is_pooled || self.recording.were_open_together(own, there);
        let pooled = is_pooled.then(|| self.alike_in(there, turn)).into_iter().flatten();
        let others = pooled.chain(same_place.filter(|_| !is_pooled));
        for other in others.filter(|it| self.can_change(id, *it, count - 1)) {
            let is_met = is_pooled || self.is_same_before(turn, other);
            if let Some(request) = self.alike_until(turn, other, count)?.filter(|_| is_met) {
                return Ok(Some(request).filter(|it| Some(self.recording.sum_of(*it)) != sum));
            }
        }
        Ok(None)
    }

    /// The last of so many messages of a turn, where they are those of another one, and all before it were answered alike.
    fn alike_until(
        &self,
        turn: usize,
        other: usize,
        count: usize,
    ) -> Result<Option<usize>, RereadError> {
        let is_alike =
            self.says_alike(turn, other, count) && self.is_alike(turn, other, count - 1)?;
        Ok(self.core(other).nth(count - 1).filter(|_| is_alike))
    }

    /// The first turn of a connection.
    fn begin_of(&self, connection: usize) -> usize {
        self.recording.connections[connection].turns.start
    }

    /// The turns of its connection before one, which may be past its last.
    fn before(&self, connection: usize, turn: usize) -> Range<usize> {
        self.begin_of(connection)..turn
    }

    fn is_same_before(&self, turn: usize, other: usize) -> bool {
        let before = |turn: usize| self.before(self.recording.turns[turn].connection(), turn);
        self.are_same(before(turn), before(other))
    }

    /// Whether turns were said and heard alike.
    fn are_same(&self, one: Range<usize>, other: Range<usize>) -> bool {
        let all = |turn: usize| {
            self.core(turn)
                .map(|it| (self.recording.requests.compare_by(it), self.recording.sum_of(it)))
        };
        one.len() == other.len() && one.zip(other).all(|(one, other)| all(one).eq(all(other)))
    }

    /// Notes that a session takes a turn in the place of the one that would be next: unless both connections were the same up
    /// to there, it is one of a pool.
    pub(super) fn note_jump(&mut self, id: usize, turn: usize) {
        let slot = self.slot(id);
        let own = self.before(slot.connection, slot.turn.unwrap_or(slot.next));
        let there = self.before(self.recording.turns[turn].connection(), turn);
        if !slot.is_pooled && !self.are_same(own, there) {
            self.slot_mut(id).is_pooled = true;
        }
    }
}
