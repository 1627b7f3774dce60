//! A session after its login, which says where a ReadyForQuery may answer any of several Syncs.

use pgmsg::flow::{Flow, Heard};

/// Follows both sides by the order of the protocol.
pub struct FollowedSession {
    /// Nothing where the session breaks the order, or is one of replication.
    flow: Option<Flow>,
    is_open: bool,
}

impl Default for FollowedSession {
    fn default() -> FollowedSession {
        FollowedSession { flow: Some(Flow::ready()), is_open: false }
    }
}

impl FollowedSession {
    /// Takes a message of the client.
    pub fn said(&mut self, tag: Option<u8>, body: &[u8]) {
        if matches!(tag, None | Some(b'p')) {
            return;
        }
        if self.flow.as_mut().is_some_and(|flow| flow.said(tag, body).is_err()) {
            self.flow = None;
        }
    }

    /// Takes a message of the server. Answers whether it is a ReadyForQuery for one of the Syncs of a COPY that failed.
    pub fn heard(&mut self, tag: Option<u8>, body: &[u8]) -> bool {
        if !self.is_open {
            self.is_open = tag == Some(b'Z');
            return false;
        }
        match self.flow.as_mut().map(|flow| flow.heard(tag, body)) {
            Some(Ok(heard)) => matches!(heard, Heard::Group { .. }),
            Some(Err(_)) => {
                self.flow = None;
                false
            }
            None => false,
        }
    }
}
