//! What is replayed of a recording, and what is left.

use super::Pool;
use std::collections::HashSet;

impl Pool {
    /// Whether as many clients came and are gone as were recorded.
    pub fn is_done(&self) -> bool {
        !self.again && self.done >= self.recording.connections.len()
    }

    /// How many recorded sessions were replayed without a difference, each counted once.
    pub fn replayed(&self) -> usize {
        self.connections.iter().filter(|it| it.is_replayed).count()
    }

    /// The first recorded message that no client said, of those that may not be left out.
    pub fn first_unsaid(&self) -> Option<usize> {
        let unused = self.uses.iter().position(|it| *it == 0);
        let unused = unused.into_iter().flat_map(|first| first..self.uses.len());
        unused
            .filter(|turn| self.uses[*turn] == 0 && !self.may_be_left_out(*turn))
            .map(|turn| self.recording.turns[turn].requests().start)
            .next()
    }

    /// The identities of connections in whose place a client went on with a server, and of which no other client took a part. The
    /// login is no part, unless nothing else was said.
    pub fn renewed(&self) -> HashSet<u64> {
        let all = self.recording.connections.iter().zip(&self.connections);
        let renewed = all.filter(|(recorded, it)| {
            let is_login = recorded.turns.is_empty();
            it.is_renewed
                && (!is_login || it.rounds == 0)
                && recorded.turns.clone().all(|turn| self.uses[turn] == 0)
        });
        renewed.map(|(recorded, _)| recorded.identity).collect()
    }
}
