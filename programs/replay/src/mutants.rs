//! Random and mutated bytes as recordings, and as what clients say to them: nothing panics, and little is held.

use crate::fingerprint::{Fingerprinter, Fingerprints};
use crate::pool::{Claim, Pool, RequestMatch};
use crate::recorded::{
    load, CompareBy, MessageSlice, MessageSplitter, Recording, Window, HEAD, MESSAGE_MOST,
};
use crate::rules::ReplayRules;
use ::mutants::{Mutants, OF_CLIENT, STARTUP};
use std::sync::Arc;

/// How many messages are recorded and said again where it isn't said, and how many are cut.
const SAID: u64 = 50_000;
const CUT: u64 = 200_000;

const UNCHANGED: &str = "an unchanged recording";

/// What the client of a recorded connection says, of which the first messages are those of the recording, or none.
fn said_by(mutants: &mut Mutants, recording: &Recording, connection: usize) -> Vec<u8> {
    let turns = &recording.turns[recording.connections[connection].turns.clone()];
    let recorded = turns.iter().flat_map(|it| it.requests()).take(mutants.below(20));
    let mut said: Vec<u8> =
        recorded.flat_map(|it| recording.message(it).expect(UNCHANGED)).collect();
    said.extend(mutants.messages(&OF_CLIENT, 20));
    if mutants.flips() {
        mutants.mutated(said)
    } else {
        said
    }
}

/// The recorded message that is next, while a client says byte by byte what was recorded.
struct NextRequest {
    request: Option<usize>,
    window: Window,
}

impl NextRequest {
    /// The fingerprint of a message. That of the recorded one is the same, and its names stand for the same.
    fn fingerprint(
        &mut self,
        recording: &Recording,
        fingerprinter: &mut Fingerprinter,
        message: &[u8],
    ) -> u32 {
        let next = self.request.take().filter(|it| *it < recording.requests.len());
        let mut is_said =
            |it| recording.is_recorded(it, message, &mut self.window).expect(UNCHANGED);
        let next = next.filter(|it| is_said(*it));
        if let Some(next) = next {
            let there = recording.fingerprinter_at(next, &Arc::default()).expect(UNCHANGED);
            assert!(there.has_names_of(fingerprinter));
        }
        let fingerprint =
            recording.fingerprints.find(fingerprinter.message(Some(message[0]), &message[HEAD..]));
        if let Some(CompareBy::Fingerprint(recorded)) =
            next.map(|it| recording.requests.compare_by(it))
        {
            assert_eq!(recorded, fingerprint);
            self.request = next;
        }
        fingerprint
    }
}

/// How many clients came, how many of them found a connection, and how many of their messages were as recorded.
#[derive(Debug, Default)]
struct Coverage {
    claims: u64,
    slots: u64,
    fits: u64,
}

/// A recorded message has the fingerprint that a client's has which said the same before.
fn check_fingerprint(recording: &Recording, said: usize, message: &[u8]) {
    let is_startup = recording.connections.iter().any(|it| it.startup == said);
    if let (CompareBy::Fingerprint(fingerprint), false) =
        (recording.requests.compare_by(said), is_startup)
    {
        let mut fingerprinter = recording.fingerprinter_at(said, &Arc::default()).expect(UNCHANGED);
        assert_eq!(
            recording.fingerprints.find(fingerprinter.message(Some(message[0]), &message[HEAD..])),
            fingerprint
        );
    }
}

/// Says something to a recording by a pool of one client.
fn say(
    mutants: &mut Mutants,
    recording: &Arc<Recording>,
    pool: &mut Pool,
    coverage: &mut Coverage,
) {
    let mut fingerprinter = Fingerprinter::new(Arc::new(ReplayRules::default()));
    let fingerprint = recording.fingerprints.find(fingerprinter.message(None, &STARTUP[4..]));
    mutants.took(1);
    coverage.claims += 1;
    let Claim::Slot(slot) = pool.claim(fingerprint) else {
        return;
    };
    coverage.slots += 1;
    let said = said_by(mutants, recording, slot);
    let mut next = NextRequest {
        request: Some(recording.connections[slot].startup + 1),
        window: Window::default(),
    };
    let (mut splitter, mut rest) = (MessageSplitter::of_client(), &said[..]);
    while let Ok(Some(MessageSlice::Whole(message))) = splitter.cut(&mut rest) {
        mutants.took(1);
        let fingerprint = next.fingerprint(recording, &mut fingerprinter, message);
        match pool.step(slot, fingerprint).expect(UNCHANGED) {
            RequestMatch::Fits(fit) => {
                coverage.fits += 1;
                fingerprinter.settle(fingerprint);
                if fit.is_idle {
                    fingerprinter.end_transaction();
                }
                assert!(fit.request < recording.requests.len());
                next.request = next.request.filter(|it| *it == fit.request).map(|it| it + 1);
            }
            RequestMatch::Prepares(said) => {
                fingerprinter.settle(fingerprint);
                assert!(said < recording.requests.len());
                next.request = None;
            }
            RequestMatch::Differs(said) => {
                assert!(said.is_none_or(|it| it < recording.requests.len()));
                break;
            }
        }
    }
    pool.leave(slot, true);
}

#[test]
fn anything_that_is_recorded_or_said_is_taken() {
    let (mut mutants, mut coverage) = (Mutants::of_variables(SAID), Coverage::default());
    let path = std::env::temp_dir().join(format!("mutants.{}", std::process::id()));
    while mutants.go_on() {
        std::fs::write(&path, mutants.recording()).expect("a file");
        let keeps_times = mutants.flips();
        let recording = load(&path, &Arc::new(ReplayRules::default()), keeps_times, &|_| ());
        // A file that is written over is flushed to its disk each time.
        std::fs::remove_file(&path).expect("a file");
        let Ok(recording) = recording else {
            mutants.took(1);
            continue;
        };
        mutants.took(recording.requests.len().max(1));
        let recording = Arc::new(recording);
        let mut pool = Pool::new(recording.clone(), true, true, false);
        for _ in 0..40 {
            say(&mut mutants, &recording, &mut pool, &mut coverage);
        }
        let mut window = Window::default();
        for said in 0..recording.requests.len() {
            let message = recording.message(said).expect(UNCHANGED);
            check_fingerprint(&recording, said, &message);
            for part in recording.answer_of(said) {
                recording.answer_chunk(part, &mut window).expect(UNCHANGED);
            }
        }
    }
    println!("{coverage:?}");
    assert!(coverage.slots * 2 > coverage.claims, "few clients find a connection");
    assert!(coverage.fits > coverage.slots, "few messages are as recorded");
    mutants.end("messages, recorded and said again");
}

#[test]
fn any_bytes_are_cut_and_compared_in_little_room() {
    let mut mutants = Mutants::of_variables(CUT);
    while mutants.go_on() {
        let mut splitter = MessageSplitter::of_connection();
        // The fingerprints of one client's messages, as a recording keeps them.
        let mut fingerprints = Fingerprints::default();
        let mut bytes = mutants.first_bytes();
        bytes.extend(mutants.messages(&OF_CLIENT, 3));
        let bytes = mutants.mutated(bytes);
        let mut fingerprinter = Fingerprinter::new(Arc::new(ReplayRules::default()));
        for piece in bytes.chunks(1 + mutants.below(64)) {
            let mut rest = piece;
            while let Ok(Some(cut)) = splitter.cut(&mut rest) {
                if let MessageSlice::Whole(message) = cut {
                    assert!(message.len() <= MESSAGE_MOST);
                    let fingerprint = fingerprints.number(
                        fingerprinter
                            .message(Some(message[0]), message.get(HEAD..).unwrap_or_default()),
                    );
                    fingerprinter.settle(fingerprint);
                    mutants.took(1);
                }
            }
        }
        mutants.took(1);
    }
    mutants.end("first bytes and messages of clients, cut and compared");
}
