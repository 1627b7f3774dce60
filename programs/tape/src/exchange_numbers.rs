//! The exchanges of a session: what a client says up to what a server answers with ReadyForQuery, and that answer.
//!
//! The login is number 0. An answer belongs to the exchange of its request, so that the numbers of a pipeline don't depend on
//! when an answer came, nor on how many ReadyForQuery answer the Syncs of a COPY that failed.

use crate::event::{EventKind, RawMessage};
use pgmsg::flow::{Flow, Heard};
use recording::Side;
use std::collections::{HashMap, VecDeque};

/// Counts the exchanges of a connection.
struct ExchangeCounter {
    /// The exchanges that the next messages of either side belong to, unless a server's answers a request.
    client: u32,
    server: u32,
    /// The client has said something of its exchange.
    has_begun: bool,
    /// The exchange before ended with a Sync, which a server passes over while it waits for the data of a COPY.
    by_sync: bool,
    /// The session after its login. Nothing once it breaks the order, as a recording may have it; or ends a COPY's data before
    /// the server asks for them, which is no break, or has a message above 4 MiB, which isn't shown here. Each ReadyForQuery
    /// ends an exchange then.
    flow: Option<Flow>,
    /// The exchanges of the requests from the number of the first on.
    requests: VecDeque<u32>,
    first: u64,
    last: u32,
}

/// Numbers the exchanges of connections.
#[derive(Default)]
pub struct ExchangeNumbers {
    sessions: HashMap<u32, ExchangeCounter>,
}

impl ExchangeNumbers {
    /// The number of the exchange that an event of a connection belongs to, where it belongs to one.
    pub fn number(&mut self, connection: u32, kind: &EventKind<'_>) -> Option<u32> {
        match kind {
            EventKind::Opened(_) => {
                self.sessions.insert(connection, ExchangeCounter::new());
                None
            }
            EventKind::Closed(_) => {
                self.sessions.remove(&connection);
                None
            }
            EventKind::Encrypted => None,
            EventKind::LeftOut { .. } => Some(0),
            EventKind::Message { side, message, .. } => {
                let session = self.sessions.get_mut(&connection)?;
                session.last = match side {
                    Side::Client => session.client(message),
                    Side::Server => session.server(message),
                };
                Some(session.last)
            }
            EventKind::Continued { .. } | EventKind::Bytes { .. } => {
                self.sessions.get(&connection).map(|it| it.last)
            }
        }
    }
}

impl ExchangeCounter {
    fn new() -> ExchangeCounter {
        ExchangeCounter {
            client: 1,
            server: 0,
            has_begun: false,
            by_sync: false,
            flow: Some(Flow::ready()),
            requests: VecDeque::new(),
            first: 0,
            last: 0,
        }
    }

    fn client(&mut self, message: &RawMessage<'_>) -> u32 {
        let number = match message.tag {
            None | Some(b'p') => return 0,
            Some(tag) => self.client_number(tag),
        };
        match self.flow.as_mut().map(|flow| flow.said(message.tag, message.body())) {
            Some(Ok(Some(_))) => self.requests.push_back(number),
            Some(Err(_)) => self.flow = None,
            _ => {}
        }
        number
    }

    /// The exchange of a client's message. Data belong to that of their COPY, of which a Sync may have been said.
    fn client_number(&mut self, tag: u8) -> u32 {
        let is_copy = matches!(tag, b'd' | b'c' | b'f');
        if is_copy && !self.has_begun && self.client > 1 {
            let number = self.client - 1;
            if self.by_sync && tag != b'd' {
                (self.client, self.has_begun) = (number, true);
            }
            return number;
        }
        let number = self.client;
        self.has_begun = !matches!(tag, b'Q' | b'S' | b'F');
        if !self.has_begun {
            (self.client, self.by_sync) = (number + 1, tag == b'S');
        }
        number
    }

    fn server(&mut self, message: &RawMessage<'_>) -> u32 {
        let is_login = self.server == 0;
        let number = if is_login { 0 } else { self.answered(message).unwrap_or(self.server) };
        if message.tag == Some(b'Z') {
            self.server = number + 1;
        }
        number
    }

    /// The exchange of the request that a server's message answers, or of the one that it came in.
    fn answered(&mut self, message: &RawMessage<'_>) -> Option<u32> {
        let flow = self.flow.as_mut()?;
        let request = match flow.heard(message.tag, message.body()) {
            Ok(Heard::Answer { request, .. } | Heard::Group { last: request, .. }) => request,
            Ok(_) => flow.first(),
            Err(_) => {
                self.flow = None;
                return None;
            }
        };
        let number = self.requests.get(request.saturating_sub(self.first) as usize).copied();
        while self.first < flow.first() && self.requests.pop_front().is_some() {
            self.first += 1;
        }
        number
    }
}

#[cfg(test)]
mod tests {
    use super::*;
    use crate::samples::session_of;

    /// The numbers of the messages of a session.
    fn said(text: &str) -> Vec<u32> {
        let mut exchanges = ExchangeNumbers::default();
        session_of(text).iter().filter_map(|event| exchanges.number(1, event)).collect()
    }

    #[test]
    fn what_is_said_and_what_is_answered_have_one_number() {
        let table: [(&str, &[u32]); 9] = [
            ("_<R>p<RSKZ", &[0, 0, 0, 0, 0, 0, 0]),
            ("_<Z>Q<TDCZ>Q<CZ>X", &[0, 0, 1, 1, 1, 1, 1, 2, 2, 2, 3]),
            ("_<Z>PBDESBES<12TDCZ2CZ", &[0, 0, 1, 1, 1, 1, 1, 2, 2, 2, 1, 1, 1, 1, 1, 1, 2, 2, 2]),
            ("_<Z>Q<G>ddc<CZ>Q", &[0, 0, 1, 1, 1, 1, 1, 1, 1, 2]),
            ("_<Z>PBES<12G>ddcS<CZ>Q", &[0, 0, 1, 1, 1, 1, 1, 1, 1, 1, 1, 1, 1, 1, 1, 2]),
            ("_<Z>F<VZ>Q", &[0, 0, 1, 1, 1, 2]),
            ("_<Z>PBESPBES<1EZ12CZ", &[0, 0, 1, 1, 1, 1, 2, 2, 2, 2, 1, 1, 1, 2, 2, 2, 2]),
            ("_<Z>PB<1E>ESQ<ZCZ", &[0, 0, 1, 1, 1, 1, 1, 1, 2, 1, 2, 2]),
            ("r<Z>Q<W>d<d>c<cCCZ>Q<CZ", &[0, 0, 1, 1, 1, 1, 1, 1, 1, 1, 1, 2, 2, 2]),
        ];
        for (text, wanted) in table {
            assert_eq!(said(text), wanted, "{text}");
        }
    }

    /// A server answers the Sync before the data too, where the COPY fails before it takes them, and drops it otherwise.
    #[test]
    fn a_sync_before_the_data_of_a_copy_that_fails_does_not_shift_what_follows() {
        let begun = [0, 0, 1, 1, 1, 1, 1, 1, 1, 1, 1, 1];
        let table: [(&str, &[u32]); 4] = [
            ("_<Z>PBES<12G>dcS<EZ>QQ<TCZCZ", &[1, 1, 2, 3, 2, 2, 2, 3, 3]),
            ("_<Z>PBES<12G>dcS<EZZ>QQ<TCZCZ", &[1, 1, 1, 2, 3, 2, 2, 2, 3, 3]),
            ("_<Z>PBES<12G>dcS<E>QQ<ZTCZCZ", &[1, 2, 3, 1, 2, 2, 2, 3, 3]),
            ("_<Z>PBES<12G>dcS<EZ>QQ<ZTCZCZ", &[1, 1, 2, 3, 1, 2, 2, 2, 3, 3]),
        ];
        for (text, after) in table {
            assert_eq!(said(text), [&begun[..], after].concat(), "{text}");
        }
    }

    #[test]
    fn a_session_that_is_not_followed_is_counted_by_its_readies() {
        let table: [(&str, &[u32]); 2] = [
            ("_<Z>PBEdcS<12GCZ>Q<CZ", &[0, 0, 1, 1, 1, 1, 1, 1, 1, 1, 1, 1, 1, 2, 2, 2]),
            ("_<Z>Q<CZZ>Q<CZ", &[0, 0, 1, 1, 1, 2, 2, 3, 3]),
        ];
        for (text, wanted) in table {
            assert_eq!(said(text), wanted, "{text}");
        }
    }
}
