//! Taking another turn in the place of one that has begun: as long as all that was said and heard of both is the same.

use super::{Pool, Slot};
use crate::recorded::{CompareBy, RereadError};

impl Pool {
    /// Takes another turn in the place of that which a session is in: one that went the same up to here, and goes on with
    /// a fingerprint. A client that has that one gets this one.
    pub(super) fn choose_again(
        &mut self,
        id: usize,
        fingerprint: u32,
    ) -> Result<bool, RereadError> {
        let slot = self.slot(id);
        let (Some(turn), at) = (slot.turn, slot.at) else {
            return Ok(false);
        };
        let count = self.passed(turn, at);
        for other in self.like(turn, count) {
            let place =
                self.place_after(other, count).and_then(|it| self.find(other, it, fingerprint));
            // What was said and heard is read only where the next message is the one.
            let Some(place) = place.filter(|_| self.can_change(id, other, count)) else {
                continue;
            };
            if self.is_alike(turn, other, count)? {
                self.change(id, turn, other);
                self.slot_mut(id).at = place;
                return Ok(true);
            }
        }
        Ok(false)
    }

    /// The messages of a turn that none may leave out.
    pub(super) fn core(&self, turn: usize) -> impl Iterator<Item = usize> + '_ {
        self.recording.turns[turn].requests().filter(|it| !self.recording.is_free(*it))
    }

    /// How many of them are before a place in the turn.
    pub(super) fn passed(&self, turn: usize, at: usize) -> usize {
        let place = self.recording.turns[turn].requests().start + at;
        self.core(turn).take_while(|it| *it < place).count()
    }

    /// The turns that begin as one, where so many messages of it were said, and there are others to take.
    pub(super) fn like(&self, turn: usize, count: usize) -> Vec<usize> {
        let first = self.core(turn).next().map(|it| self.recording.requests.compare_by(it));
        match first {
            Some(CompareBy::Fingerprint(first)) if count > 0 && !self.recording.is_single() => {
                let alike = self.alike(first, self.recording.snapshot_of(turn));
                alike.filter(|it| *it != turn).collect()
            }
            _ => Vec::new(),
        }
    }

    /// The place in a turn after so many messages that none may leave out.
    fn place_after(&self, turn: usize, count: usize) -> Option<usize> {
        let last = self.core(turn).nth(count.checked_sub(1)?)?;
        Some(last + 1 - self.recording.turns[turn].requests().start)
    }

    /// Takes another turn where data aren't the recorded ones: one that went the same up to here, and has data of which so
    /// many bytes are the same, and these come next; or none, where the data are to end. Answers which message has them.
    pub fn choose_bytes(
        &mut self,
        id: usize,
        passed: u64,
        next: &[u8],
    ) -> Result<Option<usize>, RereadError> {
        let slot = self.slot(id);
        let (Some(turn), at) = (slot.turn, slot.at) else {
            return Ok(None);
        };
        let (own, count) =
            (self.recording.turns[turn].requests().start + at, self.passed(turn, at));
        for other in self.like(turn, count) {
            let place = self
                .place_after(other, count)
                .map(|it| self.recording.turns[other].requests().start + it);
            let Some(request) = place.filter(|it| *it < self.recording.turns[other].requests().end)
            else {
                continue;
            };
            let fits = self.can_change(id, other, count)
                && self.recording.begins_with(request, own, passed, next)?
                && self.is_alike(turn, other, count)?;
            if fits {
                self.change(id, turn, other);
                self.slot_mut(id).at = request - self.recording.turns[other].requests().start;
                return Ok(Some(request));
            }
        }
        Ok(None)
    }

    /// Whether a turn is free, or has a client that may as well have the session's. That client isn't ahead of the session,
    /// which has said so many messages that none may leave out.
    pub(super) fn can_change(&self, id: usize, other: usize, count: usize) -> bool {
        match self.holders.get(&other).copied() {
            Some(holder) if holder == id => false,
            Some(holder) => {
                let there = self.slot(holder);
                there.turn == Some(other) && !there.is_busy && self.passed(other, there.at) <= count
            }
            None => self.is_free(other),
        }
    }

    /// Whether no other connection begins a turn with so many messages of this one.
    pub(super) fn is_of_one(&self, turn: usize, count: usize) -> bool {
        let connection = self.recording.turns[turn].connection();
        let mut others = self.like(turn, count).into_iter();
        count > 0
            && !others.any(|other| {
                self.recording.turns[other].connection() != connection
                    && self.says_alike(turn, other, count)
            })
    }

    /// Whether so many messages of two turns are the same, where those that are compared as bytes are of one length.
    pub(super) fn says_alike(&self, one: usize, other: usize, count: usize) -> bool {
        let compare_by = |request: usize| self.recording.requests.compare_by(request);
        let pairs = self.core(one).zip(self.core(other)).take(count);
        pairs.filter(|(one, other)| compare_by(*one) == compare_by(*other)).count() == count
    }

    /// Whether two turns are the same for so many messages and their answers.
    pub(super) fn is_alike(
        &self,
        one: usize,
        other: usize,
        count: usize,
    ) -> Result<bool, RereadError> {
        if !self.says_alike(one, other, count) {
            return Ok(false);
        }
        for (one, other) in self.core(one).zip(self.core(other)).take(count) {
            let is_same = match self.recording.requests.compare_by(one) {
                CompareBy::Fingerprint(_) => true,
                CompareBy::Bytes(len) => self.recording.begins_with(other, one, len, &[])?,
            };
            if !is_same || !self.recording.is_same_answer(one, other)? {
                return Ok(false);
            }
        }
        Ok(true)
    }

    /// Exchanges two turns, of which another client may have the second. That one goes on at the same message.
    fn change(&mut self, id: usize, own: usize, other: usize) {
        self.note_jump(id, other);
        let holder = self.holders.insert(other, id);
        self.slot_mut(id).take_instead(own, other);
        let Some(holder) = holder else {
            self.holders.remove(&own);
            self.uses[own] -= 1;
            self.uses[other] += 1;
            return;
        };
        self.holders.insert(own, holder);
        let count = self.passed(other, self.slot(holder).at);
        let place = self.place_after(own, count).unwrap_or(0);
        let slot = self.slot_mut(holder);
        slot.take_instead(other, own);
        slot.at = place;
    }
}

impl Slot {
    /// Takes another turn in the place of the one that it is in.
    fn take_instead(&mut self, own: usize, other: usize) {
        self.turn = Some(other);
        if let Some(last) = self.taken.last_mut().filter(|it| **it == own) {
            *last = other;
        }
    }
}
