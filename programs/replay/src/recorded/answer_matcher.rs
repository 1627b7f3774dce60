//! Which message of a client each message of the server answers. What a client said is cut by what it says, and never by
//! the time at which it was answered.

use pgmsg::flow::{Flow, Heard};
use std::collections::VecDeque;

/// How many messages that wait for an answer are looked through for the one that an answer is of.
const LOOKED_AT: usize = 10_000;

/// What a part of an answer waits for.
#[derive(Clone, Copy, Debug, PartialEq, Eq)]
pub enum Wait {
    No,
    /// A request to cancel comes.
    Cancel,
    /// So many milliseconds pass, as they did.
    Time(u32),
    /// This message was said, by whichever client.
    Request(usize),
}

/// What a client's message is, as far as it matters for its answer.
#[derive(Clone, Copy, Debug, PartialEq, Eq)]
pub enum RequestKind {
    Startup,
    Query,
    Call,
    Parse,
    Bind,
    Describe,
    Execute,
    Close,
    Sync,
    Data,
    DataEnd,
}

impl RequestKind {
    /// Whether a ReadyForQuery ends its answer.
    fn ends_exchange(self) -> bool {
        matches!(
            self,
            RequestKind::Startup | RequestKind::Query | RequestKind::Call | RequestKind::Sync
        )
    }

    /// Whether a server's message of this tag can answer it. Those that answer any are not asked for.
    fn is_answered_by(self, tag: u8) -> bool {
        match self {
            RequestKind::Startup => matches!(tag, b'R' | b'K' | b'v'),
            RequestKind::Query => true,
            RequestKind::Call => tag == b'V',
            RequestKind::Parse => tag == b'1',
            RequestKind::Bind => tag == b'2',
            RequestKind::Describe => matches!(tag, b't' | b'T' | b'n'),
            RequestKind::Execute => {
                matches!(tag, b'D' | b'C' | b'I' | b's' | b'H' | b'd' | b'c' | b'G' | b'W')
            }
            RequestKind::Close => tag == b'3',
            RequestKind::Sync | RequestKind::Data | RequestKind::DataEnd => false,
        }
    }

    /// Whether nothing more answers it after a message of this tag.
    fn is_done_by(self, tag: u8) -> bool {
        match self {
            RequestKind::Parse | RequestKind::Bind | RequestKind::Close => true,
            RequestKind::Describe => matches!(tag, b'T' | b'n'),
            RequestKind::Execute => matches!(tag, b'C' | b'I' | b's'),
            _ => false,
        }
    }
}

/// A COPY to the server that isn't over.
#[derive(Clone, Copy, Debug)]
struct CopyIn {
    /// The last message of it.
    request: usize,
    is_extended: bool,
    /// Data go both ways, as in replication.
    is_both: bool,
    /// The server has reported an error.
    has_failed: bool,
}

/// Where a server's message belongs.
#[derive(Clone, Copy, Debug, PartialEq, Eq)]
pub enum AnswerTarget {
    /// It answers this message.
    Request(usize),
    /// It came by itself after the answer to this one.
    After(usize),
    /// It answers the end of a COPY's data, or the last of them where none is said.
    Held,
}

/// Follows both sides of a connection.
#[derive(Debug, Default)]
pub struct AnswerMatcher {
    queue: VecDeque<(usize, RequestKind)>,
    /// An error was reported, and the server takes nothing before a Sync.
    is_skipping: bool,
    copy: Option<CopyIn>,
    last: usize,
    followed: FollowedSession,
}

/// A session after its login, which says how many ReadyForQuery may answer the Syncs of a COPY that fails.
#[derive(Debug, Default)]
struct FollowedSession {
    /// Nothing before the login is over, and once the session breaks the order, or ends a COPY's data before the server asks
    /// for them. What was recorded is served whatever it is: the answers are matched by their kinds alone then.
    flow: Option<Flow>,
    is_open: bool,
    /// The client's messages that are requests, from the number of the first on.
    requests: VecDeque<usize>,
    first: u64,
}

impl FollowedSession {
    /// Takes a message of the client.
    fn said(&mut self, number: usize, tag: u8, body: &[u8]) {
        match self.flow.as_mut().map(|flow| flow.said(Some(tag), body)) {
            Some(Ok(Some(_))) => self.requests.push_back(number),
            Some(Err(_)) => self.flow = None,
            _ => {}
        }
    }

    /// Takes a message of the server. Answers the last Sync where it may answer several.
    fn heard(&mut self, tag: u8, body: &[u8]) -> Option<usize> {
        if !self.is_open {
            self.is_open = tag == b'Z';
            self.flow = Some(Flow::ready()).filter(|_| self.is_open);
            return None;
        }
        let flow = self.flow.as_mut()?;
        let last = match flow.heard(Some(tag), body) {
            Ok(Heard::Group { last, .. }) => {
                self.requests.get(last.saturating_sub(self.first) as usize).copied()
            }
            Ok(_) => None,
            Err(_) => {
                self.flow = None;
                return None;
            }
        };
        while self.first < flow.first() && self.requests.pop_front().is_some() {
            self.first += 1;
        }
        last
    }
}

impl AnswerMatcher {
    /// Whether data go both ways.
    pub fn is_both(&self) -> bool {
        self.copy.is_some_and(|it| it.is_both)
    }

    /// Takes a message of the client, by its number. Answers to which message those belong that were held.
    pub fn request(
        &mut self,
        number: usize,
        kind: RequestKind,
        (tag, body): (u8, &[u8]),
    ) -> Option<usize> {
        self.followed.said(number, tag, body);
        self.take_request(number, kind)
    }

    fn take_request(&mut self, number: usize, kind: RequestKind) -> Option<usize> {
        let mut freed = None;
        if let Some(copy) = self.copy.as_mut() {
            match kind {
                RequestKind::Data => {
                    copy.request = number;
                    return None;
                }
                RequestKind::Sync if copy.is_extended && !copy.has_failed => return None,
                RequestKind::DataEnd if !copy.has_failed => {
                    self.end_copy(number);
                    return None;
                }
                RequestKind::DataEnd => copy.request = number,
                _ => {}
            }
            freed = copy.has_failed.then_some(copy.request);
            self.is_skipping = copy.has_failed && copy.is_extended;
            self.copy = None;
            if kind == RequestKind::DataEnd {
                return freed;
            }
        }
        if !self.is_skipping || kind == RequestKind::Sync {
            self.is_skipping = false;
            self.queue.push_back((number, kind));
        }
        freed
    }

    /// The end of the data is what is answered then.
    fn end_copy(&mut self, number: usize) {
        self.copy = None;
        if let Some(front) = self.queue.front_mut() {
            front.0 = number;
        }
    }

    /// Where a server's message belongs.
    pub fn answer(&mut self, tag: u8, body: &[u8]) -> AnswerTarget {
        let group = self.followed.heard(tag, body);
        let target = match tag {
            b'N' | b'S' | b'A' => self.front(),
            b'E' => self.on_error(),
            b'Z' => match group {
                Some(last) => self.on_ready_of_group(last),
                None => self.on_ready(),
            },
            _ => self.on_answer(tag),
        };
        if let AnswerTarget::Request(number) = target {
            self.last = number;
        }
        target
    }

    fn front(&self) -> AnswerTarget {
        match self.queue.front() {
            Some((number, _)) => AnswerTarget::Request(*number),
            None => AnswerTarget::After(self.last),
        }
    }

    fn on_error(&mut self) -> AnswerTarget {
        if let Some(copy) = self.copy.as_mut().filter(|it| !it.is_both) {
            copy.has_failed = true;
            if copy.is_extended {
                self.skip_to_sync();
            }
            return AnswerTarget::Held;
        }
        self.copy = None;
        while matches!(self.queue.front(), Some((_, RequestKind::Data | RequestKind::DataEnd))) {
            self.queue.pop_front();
        }
        let target = self.front();
        match self.queue.front() {
            None | Some((_, RequestKind::Startup | RequestKind::Query | RequestKind::Call)) => {}
            Some(_) => self.is_skipping = !self.skip_to_sync(),
        }
        target
    }

    /// Forgets what the server doesn't take after an error. Answers whether a Sync is there already.
    fn skip_to_sync(&mut self) -> bool {
        while self.queue.front().is_some_and(|(_, kind)| *kind != RequestKind::Sync) {
            self.queue.pop_front();
        }
        !self.queue.is_empty()
    }

    fn on_ready(&mut self) -> AnswerTarget {
        if self.copy.is_some_and(|it| it.has_failed && !it.is_extended) {
            self.queue.pop_front();
            return AnswerTarget::Held;
        }
        while let Some((number, kind)) = self.queue.pop_front() {
            if kind.ends_exchange() {
                return AnswerTarget::Request(number);
            }
        }
        AnswerTarget::After(self.last)
    }

    /// A ReadyForQuery answers one of the Syncs of a COPY that failed, of which this is the last: no other request is done by it.
    fn on_ready_of_group(&mut self, last: usize) -> AnswerTarget {
        if self.copy.is_some_and(|it| it.has_failed) {
            return AnswerTarget::Held;
        }
        while self.queue.front().is_some_and(|(number, _)| *number <= last) {
            self.queue.pop_front();
        }
        AnswerTarget::Request(last)
    }

    fn on_answer(&mut self, tag: u8) -> AnswerTarget {
        let mut asked = self.queue.iter().take(LOOKED_AT);
        let Some(place) = asked.position(|(_, kind)| kind.is_answered_by(tag)) else {
            return self.front();
        };
        self.queue.drain(..place);
        let (number, kind) = self.queue[0];
        if kind.is_done_by(tag) {
            self.queue.pop_front();
        }
        if matches!(tag, b'G' | b'W') {
            self.begin_copy(number, kind == RequestKind::Execute, tag == b'W');
        }
        AnswerTarget::Request(number)
    }

    /// Begins a COPY whose data may have been said already.
    fn begin_copy(&mut self, request: usize, is_extended: bool, is_both: bool) {
        self.copy = Some(CopyIn { request, is_extended, is_both, has_failed: false });
        while let Some((number, kind)) = self.queue.get(1).copied() {
            match kind {
                RequestKind::Sync if is_extended => {}
                RequestKind::Data | RequestKind::DataEnd => {}
                _ => return,
            }
            self.queue.remove(1);
            self.take_request(number, kind);
            if kind == RequestKind::DataEnd {
                return;
            }
        }
    }
}

#[cfg(test)]
mod tests {
    use super::*;
    use AnswerTarget::{Held, Request};

    /// Where the messages of a server belong, of a session whose messages a text has, a letter each by their tags: `_` is a
    /// Startup, and `>` and `<` change the side.
    fn answered(text: &str) -> Vec<AnswerTarget> {
        let (mut matcher, mut targets, mut is_client) =
            (AnswerMatcher::default(), Vec::new(), true);
        let mut number = 0;
        for letter in text.bytes() {
            let kind = match letter {
                b'>' | b'<' => {
                    is_client = letter == b'>';
                    continue;
                }
                b'_' => RequestKind::Startup,
                b'Q' => RequestKind::Query,
                b'P' => RequestKind::Parse,
                b'B' => RequestKind::Bind,
                b'E' => RequestKind::Execute,
                b'S' => RequestKind::Sync,
                b'd' => RequestKind::Data,
                _ => RequestKind::DataEnd,
            };
            if is_client {
                matcher.request(number, kind, (letter, b""));
                number += 1;
            } else {
                targets.push(matcher.answer(letter, b"I"));
            }
        }
        targets
    }

    #[test]
    fn a_second_ready_behind_a_copy_that_failed_answers_nothing_that_was_said_next() {
        // The messages: Startup, Parse, Bind, Execute, Sync, data, CopyDone, Sync, and a Query.
        let begun = [0, 0, 1, 2, 3].map(Request);
        let query = [8, 8, 8].map(Request);
        let table: [(&str, &[AnswerTarget]); 4] = [
            ("_<RZ>PBES<12G>dcS<EZ>Q<TCZ", &[Request(6), Request(7)]),
            ("_<RZ>PBES<12G>dcS<EZZ>Q<TCZ", &[Request(6), Request(7), Request(7)]),
            ("_<RZ>PBES<12G>dcS<EZ>Q<ZTCZ", &[Request(6), Request(7), Request(7)]),
            ("_<RZ>PBES<12G>d<EZ>cS<Z>Q<TCZ", &[Held, Held, Request(7)]),
        ];
        for (text, wanted) in table {
            assert_eq!(answered(text), [&begun[..], wanted, &query].concat(), "{text}");
        }
    }

    #[test]
    fn a_sync_before_the_data_of_a_copy_that_succeeds_is_answered_by_the_one_after_them() {
        let wanted = [0, 0, 1, 2, 3, 6, 7, 8, 8].map(Request);
        assert_eq!(answered("_<RZ>PBES<12G>dcS<CZ>Q<CZ"), wanted);
    }
}
