//! Recordings of short sessions, which clients say again.

use super::*;
use crate::fingerprint::{Fingerprinter, UNRECORDED};
use crate::recorded::load;
use crate::rules::ReplayRules;
use pgmsg::backend::{Authentication, BackendKeyData, Message, TransactionStatus};
use pgmsg::frontend;
use recording::{RecordKind, Side, Writer};
use std::sync::atomic::{AtomicU32, Ordering};

/// The numbers of a connection and of a message in it.
type MessagePosition = (u32, u32);

/// The texts and answers of a session.
type TestExchanges<'a> = &'a [(&'a str, &'a str)];

const STARTUP: &[u8] = b"\0\0\0\x12\0\x03\0\0user\0ann\0\0";

fn query(text: &str) -> Vec<u8> {
    let mut bytes = Vec::new();
    frontend::Message::Query(text.into()).write(&mut bytes).expect("a Query");
    bytes
}

fn answer(messages: &[Message<'_>]) -> Vec<u8> {
    let mut bytes = Vec::new();
    messages.iter().for_each(|it| it.write(&mut bytes).expect("an answer"));
    bytes
}

/// The records of a session with a number from a time on: its kinds, contents and times.
fn records(
    number: u32,
    begun: u64,
    exchanges: TestExchanges<'_>,
) -> Vec<(u64, u32, RecordKind, Vec<u8>)> {
    let key = BackendKeyData { process_id: number, secret_key: b"1234".as_slice().into() };
    let ready = |is_open| match is_open {
        true => Message::ReadyForQuery(TransactionStatus::InTransaction),
        false => Message::ReadyForQuery(TransactionStatus::Idle),
    };
    let login =
        [Message::Authentication(Authentication::Ok), Message::BackendKeyData(key), ready(false)];
    let (mut all, mut is_open) = (vec![(begun, RecordKind::Opened, Vec::new())], false);
    all.push((begun, RecordKind::Bytes(Side::Client), STARTUP.to_vec()));
    all.push((begun, RecordKind::Bytes(Side::Server), answer(&login)));
    for ((text, heard), time) in exchanges.iter().zip(begun + 1..) {
        is_open = *text == "BEGIN" || (is_open && *text != "COMMIT");
        all.push((time, RecordKind::Bytes(Side::Client), query(text)));
        let heard = [Message::CommandComplete((*heard).into()), ready(is_open)];
        all.push((time, RecordKind::Bytes(Side::Server), answer(&heard)));
    }
    let end = begun + 1 + exchanges.len() as u64;
    all.push((end, RecordKind::Bytes(Side::Client), b"X\0\0\0\x04".to_vec()));
    all.push((end, RecordKind::Closed, b"F".to_vec()));
    all.into_iter().map(|(time, kind, content)| (time, number, kind, content)).collect()
}

/// A pool of sessions, each of which was begun at a time.
fn pool(sessions: &[(u64, TestExchanges<'_>)], again: bool) -> Pool {
    static NUMBER: AtomicU32 = AtomicU32::new(0);
    let name = format!("pool.{}.{}", std::process::id(), NUMBER.fetch_add(1, Ordering::Relaxed));
    let path = std::env::temp_dir().join(name);
    let numbered = sessions.iter().zip(1..);
    let mut all: Vec<_> =
        numbered.flat_map(|((begun, it), number)| records(number, *begun, it)).collect();
    all.sort_by_key(|(time, ..)| *time);
    let file = std::fs::File::create(&path).expect("a file");
    let mut writer = Writer::new(file, 0).expect("a recording");
    for (time, number, kind, content) in all {
        writer.add(kind, number, time, &content).expect("a record");
    }
    writer.end().expect("a recording");
    let recording =
        load(&path, &Arc::new(ReplayRules::default()), false, &|_| ()).expect("a recording");
    std::fs::remove_file(&path).expect("a file");
    Pool::new(Arc::new(recording), again, again, false)
}

/// A client, by its slot.
struct TestClient {
    slot: usize,
    fingerprinter: Fingerprinter,
}

impl TestClient {
    fn new(pool: &mut Pool) -> TestClient {
        let mut fingerprinter = Fingerprinter::new(Arc::new(ReplayRules::default()));
        let fingerprint =
            pool.recording.fingerprints.find(fingerprinter.message(None, &STARTUP[4..]));
        match pool.claim(fingerprint) {
            Claim::Slot(slot) => TestClient { slot, fingerprinter },
            claim => panic!("{claim:?}"),
        }
    }

    /// Says texts. Answers the place of the last in the recording, as the numbers of its connection and message, and that of its
    /// rival; none where it differs.
    fn say(
        &mut self,
        pool: &mut Pool,
        texts: &[&str],
    ) -> Option<(MessagePosition, Option<MessagePosition>)> {
        let mut last = None;
        for text in texts {
            let message = query(text);
            let fingerprint = pool
                .recording
                .fingerprints
                .find(self.fingerprinter.message(Some(b'Q'), &message[5..]));
            let RequestMatch::Fits(fit) = pool.step(self.slot, fingerprint).expect("the recording")
            else {
                return None;
            };
            self.fingerprinter.settle(fingerprint);
            last = Some(fit);
        }
        let place = |it| (pool.recording.connection_of(it), pool.recording.requests.number(it));
        last.map(|fit| (place(fit.request), fit.rival.map(place)))
    }
}

#[test]
fn a_client_follows_its_connection() {
    let mut pool = pool(&[(0, &[("a", "1"), ("b", "2")]), (10, &[("a", "1"), ("c", "3")])], false);
    assert_eq!(pool.claim(UNRECORDED), Claim::Differs(Some(0)));
    let (mut one, mut other) = (TestClient::new(&mut pool), TestClient::new(&mut pool));
    assert_eq!(one.say(&mut pool, &["a"]), Some(((1, 2), None)));
    assert_eq!(one.say(&mut pool, &["b"]), Some(((1, 3), None)));
    assert_eq!(other.say(&mut pool, &["a", "c"]), Some(((2, 3), None)));
    assert_eq!(other.say(&mut pool, &["c"]), None);
    assert!(matches!(pool.claim(0), Claim::Differs(None)));
    for client in [one, other] {
        pool.leave(client.slot, true);
    }
    assert_eq!((pool.is_done(), pool.replayed(), pool.first_unsaid()), (true, 2, None));
}

#[test]
fn a_client_takes_what_another_connection_said() {
    let exchanges = [("BEGIN", "0"), ("a", "1"), ("COMMIT", "2"), ("b", "3")];
    let others = [("BEGIN", "0"), ("c", "1"), ("COMMIT", "2"), ("d", "3")];
    let mut pool = pool(&[(0, &exchanges), (1, &others)], false);
    let (mut one, mut other) = (TestClient::new(&mut pool), TestClient::new(&mut pool));
    assert_eq!(one.say(&mut pool, &["BEGIN"]), Some(((1, 2), None)));
    assert_eq!(other.say(&mut pool, &["BEGIN"]), Some(((2, 2), None)));
    // Both have begun alike, and change places.
    assert_eq!(one.say(&mut pool, &["c"]), Some(((2, 3), None)));
    assert_eq!(other.say(&mut pool, &["a", "COMMIT", "d"]), Some(((2, 5), None)));
    assert_eq!(one.say(&mut pool, &["COMMIT", "b"]), Some(((1, 5), None)));
    assert_eq!(pool.first_unsaid(), None);
}

/// The rival of what a client says, who has the first of sessions that begin at these times.
fn rival(sessions: &[(u64, TestExchanges<'_>)], texts: &[&str]) -> Option<MessagePosition> {
    let mut pool = pool(sessions, false);
    let mut client = TestClient::new(&mut pool);
    let (_, rival) = client.say(&mut pool, texts).expect("what is recorded");
    rival
}

#[test]
fn another_answer_is_a_rival() {
    let (one, other) = ([("a", "1"), ("b", "2")], [("a", "3"), ("b", "2")]);
    for begun in [1, 10] {
        assert_eq!(rival(&[(0, &one), (begun, &other)], &["a"]), Some((2, 2)), "{begun}");
        assert_eq!(rival(&[(0, &one), (begun, &one)], &["a"]), None, "{begun}");
    }
    // Within a transaction all of it that was said and heard before has to be the same.
    let one = [("BEGIN", ""), ("x", ""), ("a", "1"), ("COMMIT", "")];
    for (said, heard, found) in [("x", "", Some((2, 4))), ("y", "", None), ("x", "!", None)] {
        let other = [("BEGIN", ""), (said, heard), ("a", "2"), ("COMMIT", "")];
        assert_eq!(
            rival(&[(0, &one), (1, &other)], &["BEGIN", "x", "a"]),
            found,
            "{said}, {heard}"
        );
    }
}

#[test]
fn the_order_of_one_connection_is_no_rival() {
    let (one, other) = ([("a", "1"), ("a", "2")], [("b", "")]);
    assert_eq!(rival(&[(0, &one), (1, &other)], &["a"]), None);
    // Clients that do the same have connections that did.
    assert_eq!(rival(&[(0, &one), (1, &one)], &["a", "a"]), None);
}

#[test]
fn connections_that_were_open_together_are_those_of_a_pool() {
    let (one, other) = ([("x", ""), ("a", "1")], [("y", ""), ("a", "2")]);
    assert_eq!(rival(&[(0, &one), (1, &other)], &["x", "a"]), Some((2, 3)));
    assert_eq!(rival(&[(0, &one), (10, &other)], &["x", "a"]), None);
    // A client that says what another one said first is that one.
    assert_eq!(rival(&[(0, &one), (10, &other)], &["y", "a"]), None);
    // One that goes on with the turn of another connection is of a pool, whenever these were open.
    let last = [("z", ""), ("a", "3")];
    assert_eq!(rival(&[(0, &one), (10, &other), (20, &last)], &["x", "z", "a"]), Some((1, 3)));
}

#[test]
fn what_a_client_had_is_no_rival_unless_it_is_served_again() {
    let sessions: [(u64, TestExchanges<'_>); 2] = [(0, &[("a", "1")]), (1, &[("a", "2")])];
    for (again, found) in [(false, None), (true, Some((1, 2)))] {
        let mut pool = pool(&sessions, again);
        let (mut one, mut other) = (TestClient::new(&mut pool), TestClient::new(&mut pool));
        assert_eq!(one.say(&mut pool, &["a"]), Some(((1, 2), Some((2, 2)))));
        assert_eq!(other.say(&mut pool, &["a"]), Some(((2, 2), found)), "{again}");
    }
}

#[test]
fn a_rival_is_passed_over_once_it_is_told() {
    let sessions: [(u64, TestExchanges<'_>); 2] =
        [(0, &[("a", "1"), ("a", "2")]), (1, &[("a", "3"), ("a", "4")])];
    let mut pool = pool(&sessions, true);
    let mut client = TestClient::new(&mut pool);
    assert_eq!(client.say(&mut pool, &["a"]), Some(((1, 2), Some((2, 2)))));
    pool.pass_over_rivals(pool.recording.connections[0].startup + 1);
    assert_eq!(client.say(&mut pool, &["a"]), Some(((1, 3), None)));
}
