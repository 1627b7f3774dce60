//! Which recorded connection a client begins with.

use super::{Pool, Slot};
use crate::recorded::CompareBy;

/// What becomes of a Startup.
#[derive(Clone, Copy, Debug, PartialEq, Eq)]
pub enum Claim {
    /// This one, whose number the session has.
    Slot(usize),
    /// No free connection fits, of which this is the first.
    Differs(Option<usize>),
}

impl Pool {
    /// Begins with the first free connection that has a Startup with a fingerprint, of those that were taken most seldom.
    pub fn claim(&mut self, fingerprint: u32) -> Claim {
        let mut first = self.free().next();
        if first.is_none() && self.again {
            self.begin_round();
            first = self.free().next();
        }
        let fits = |it: &usize| {
            self.recording.requests.compare_by(self.recording.connections[*it].startup)
                == CompareBy::Fingerprint(fingerprint)
        };
        let found = self.free().filter(fits).min_by_key(|it| self.connections[*it].rounds);
        match found {
            None => Claim::Differs(first),
            Some(connection) => {
                self.take_slot(connection);
                Claim::Slot(connection)
            }
        }
    }

    /// Takes a connection for a client that said another Startup, where it is free still.
    pub fn take_failed(&mut self, connection: usize) -> bool {
        let is_free = self.connections[connection].slot.is_none();
        if is_free {
            self.take_slot(connection);
        }
        is_free
    }

    /// Whether a client has a connection.
    pub fn is_held(&self) -> bool {
        self.connections.iter().any(|it| it.slot.is_some())
    }

    pub(super) fn free(&self) -> impl Iterator<Item = usize> + '_ {
        let all = self.connections.iter().enumerate();
        all.filter(|(_, it)| it.slot.is_none() && it.rounds <= self.round).map(|(number, _)| number)
    }

    /// Lets clients take those connections again that the fewest had, of those that none has.
    fn begin_round(&mut self) {
        let free = self.connections.iter().filter(|it| it.slot.is_none());
        if let Some(fewest) = free.map(|it| it.rounds).min() {
            self.round = fewest;
        }
    }

    fn take_slot(&mut self, connection: usize) {
        let recorded = &self.recording.connections[connection];
        self.connections[connection].slot = Some(Slot {
            next: recorded.turns.start,
            connection,
            turn: None,
            snapshot: None,
            at: 0,
            is_busy: false,
            number: self.recording.requests.number(recorded.startup),
            cancels: 0,
            begun: self.caused,
            taken: Vec::new(),
            is_pooled: false,
        });
    }

    /// Ends a session, which was replayed or did otherwise.
    pub fn leave(&mut self, id: usize, is_replayed: bool) {
        let connection = &mut self.connections[id];
        let Some(slot) = connection.slot.take() else {
            return;
        };
        connection.rounds += 1;
        connection.is_replayed |= is_replayed;
        if let Some(turn) = slot.turn.filter(|it| self.holders.get(it) == Some(&id)) {
            self.holders.remove(&turn);
        }
        self.done += 1;
    }

    /// Ends a session that goes on with a server, and takes the place of a recorded one: others may take what it took.
    pub fn give_back(&mut self, id: usize) {
        let Some(slot) = self.connections[id].slot.take() else {
            return;
        };
        if let Some(connection) = self.renewed_by(id, &slot) {
            self.connections[connection].is_renewed = true;
        }
        for turn in slot.taken {
            self.uses[turn] = self.uses[turn].saturating_sub(1);
            if self.holders.get(&turn) == Some(&id) {
                self.holders.remove(&turn);
            }
        }
    }

    /// The connection that a session said a part of which no other one has. Where each is taken once, one that said nothing
    /// of the kind has that of its Startup.
    fn renewed_by(&self, id: usize, slot: &Slot) -> Option<usize> {
        let request = |turn: usize| match slot.turn {
            Some(last) if last == turn => self.passed(turn, slot.at),
            _ => self.core(turn).count(),
        };
        let own = slot.taken.iter().rev().find(|turn| self.is_of_one(**turn, request(**turn)));
        match own {
            Some(turn) => Some(self.recording.turns[*turn].connection()),
            None => Some(id).filter(|_| !self.again),
        }
    }
}
