//! What a client asked for, in the order in which the server answers it. Both sides are followed by what they say, and never
//! by the time at which that was recorded.

use super::session::{Portal, PreparedStatement, SharedColumns};
use std::collections::{BTreeSet, VecDeque};

/// What a client asked for, to which the server has answers to come.
pub enum PendingRequest {
    /// A Parse or a Bind, by its number in the session.
    Make(u32),
    Describe(PreparedStatement),
    DescribePortal(SharedColumns),
    Execute(Portal),
    /// A Startup, a Query or a FunctionCall: the answer ends with a ReadyForQuery, also after an error.
    Query,
    /// What ends with a ReadyForQuery alone.
    Sync,
    /// The end of a COPY's data, which may be said before the server takes them.
    DataEnd,
}

/// What isn't answered yet.
#[derive(Default)]
pub struct RequestQueue {
    pending: VecDeque<PendingRequest>,
    /// The server takes the data of a COPY.
    is_copying: bool,
    /// The server has reported an error, and takes nothing before a Sync.
    is_skipping: bool,
    /// What the server didn't make of what it was asked for.
    refused: BTreeSet<u32>,
}

/// Whether a server goes on to take data after what a client says: it passes over a Sync, and takes anything else than the
/// end of the data for an error, which ends them too.
fn goes_on(pending: &PendingRequest) -> bool {
    matches!(pending, PendingRequest::Sync)
}

impl RequestQueue {
    /// A queue of a session of which is known what the server doesn't make.
    pub fn knowing(refused: BTreeSet<u32>) -> RequestQueue {
        RequestQueue { refused, ..RequestQueue::default() }
    }

    /// What the server doesn't make, as far as that is known.
    pub fn refused(&self) -> &BTreeSet<u32> {
        &self.refused
    }

    fn refuse(&mut self, pending: &PendingRequest) {
        if let PendingRequest::Make(number) = pending {
            self.refused.insert(*number);
        }
    }

    /// What is answered now.
    pub fn front(&self) -> Option<&PendingRequest> {
        self.pending.front()
    }

    /// Adds what a client asks for, unless the server passes over it.
    pub fn push(&mut self, pending: PendingRequest) {
        if self.is_copying {
            self.is_copying = goes_on(&pending);
            return self.refuse(&pending);
        }
        match pending {
            PendingRequest::Sync => self.is_skipping = false,
            PendingRequest::DataEnd if self.pending.is_empty() => return,
            _ if self.is_skipping => return self.refuse(&pending),
            _ => {}
        }
        self.pending.push_back(pending);
    }

    /// The front is answered.
    pub fn pop(&mut self) {
        self.pending.pop_front();
        self.drop_ends();
    }

    /// The front takes the data of a COPY, of which some may have been said already.
    pub fn begin_copy(&mut self) {
        self.is_copying = true;
        while self.is_copying {
            match self.pending.remove(1) {
                Some(pending) => {
                    self.is_copying = goes_on(&pending);
                    self.refuse(&pending);
                }
                None => return,
            }
        }
    }

    /// The server reports an error: unless a Query failed, it passes over what is asked for up to the next Sync.
    pub fn fail(&mut self) {
        self.is_copying = false;
        if matches!(self.front(), None | Some(PendingRequest::Query)) {
            return;
        }
        while !matches!(self.front(), None | Some(PendingRequest::Sync)) {
            let pending = self.pending.pop_front();
            pending.iter().for_each(|it| self.refuse(it));
        }
        self.is_skipping = self.pending.is_empty();
    }

    /// The server is ready: what was asked for up to the first Query or Sync is over.
    pub fn ready(&mut self) {
        (self.is_copying, self.is_skipping) = (false, false);
        while let Some(pending) = self.pending.pop_front() {
            if matches!(pending, PendingRequest::Query | PendingRequest::Sync) {
                break;
            }
        }
        self.drop_ends();
    }

    /// The server is ready after one of the Syncs of a COPY that failed, of which it may answer fewer: nothing else is over.
    pub fn ready_of_group(&mut self) {
        (self.is_copying, self.is_skipping) = (false, false);
        if matches!(self.front(), Some(PendingRequest::Sync)) {
            self.pop();
        }
    }

    /// Drops ends of data that no COPY has taken, which a server passes over.
    fn drop_ends(&mut self) {
        while matches!(self.front(), Some(PendingRequest::DataEnd)) {
            self.pending.pop_front();
        }
    }
}
