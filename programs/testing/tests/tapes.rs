//! Recordings of a server that answers each query with the query's own text, and replays of them.
#![forbid(unsafe_code)]

use std::io::{Read, Write};
use std::net::{TcpListener, TcpStream};
use std::path::PathBuf;
use std::time::Duration;
use std::{fs, thread};

use pgmsg_testing::{Error, Options, Tape};

/// The first message of each client.
const STARTUP: &[u8] = b"\0\0\0\x12\0\x03\0\0user\0ann\0\0";

#[test]
fn a_test_runs_without_the_server_on_what_was_recorded() {
    let path = recorded("again", &["SELECT 1", "SELECT 2"]);
    let tape = Options::new().replay(&path).unwrap();
    assert!(!tape.is_recorded());
    assert_eq!(ask(&tape, &["SELECT 1", "SELECT 2"]), ["SELECT 1", "SELECT 2"]);
    assert_eq!(ask(&tape, &["SELECT 1", "SELECT 2"]), ["SELECT 1", "SELECT 2"]);
    tape.finish().unwrap();
}

#[test]
fn a_client_that_differs_fails_with_the_diff() {
    let path = recorded("differs", &["SELECT 1"]);
    let mut tape = Options::new().replay(&path).unwrap();
    ask(&tape, &["SELECT 7"]);
    // The report may come after the answer.
    while tape.differences().is_empty() {
        thread::sleep(Duration::from_millis(10));
    }
    assert!(tape.differences().contains("SELECT 7"));
    let why = tape.finish().unwrap_err();
    assert!(
        matches!(&why, Error::Differs { said, .. } if said.contains("SELECT 1") && said.contains("SELECT 7")),
        "{why}"
    );
}

#[test]
#[should_panic(expected = "SELECT 8")]
fn a_tape_that_is_dropped_says_what_differed() {
    let path = recorded("dropped", &["SELECT 1"]);
    let tape = Options::new().replay(path).unwrap();
    ask(&tape, &["SELECT 8"]);
}

#[test]
fn of_a_whole_recording_each_session_is_taken() {
    let path = recorded("whole", &["SELECT 1"]);
    let tape = Options::new().whole().replay(&path).unwrap();
    ask(&tape, &["SELECT 1"]);
    tape.finish().unwrap();
    let tape = Options::new().whole().replay(&path).unwrap();
    assert!(matches!(tape.finish(), Err(Error::Differs { .. })));
}

#[test]
fn only_what_is_missing_is_recorded() {
    let path = folder("missing").join("its.tape");
    for sessions in [&[["SELECT 1"]][..], &[["SELECT 1"], ["SELECT 2"]]] {
        let tape = Options::new().server("127.0.0.1", server()).renew(&path).unwrap();
        for queries in sessions {
            assert_eq!(ask(&tape, queries), queries);
        }
        tape.finish().unwrap();
    }
    let tape = Options::new().whole().replay(&path).unwrap();
    assert_eq!(ask(&tape, &["SELECT 1"]), ["SELECT 1"]);
    assert_eq!(ask(&tape, &["SELECT 2"]), ["SELECT 2"]);
    tape.finish().unwrap();
}

#[test]
fn of_runs_at_once_each_adds_what_it_records() {
    let path = recorded("at-once", &["SELECT 1"]);
    let renew = || Options::new().server("127.0.0.1", server()).renew(&path).unwrap();
    let (one, other, failing) = (renew(), renew(), renew());
    for (tape, query) in [(&one, "SELECT 2"), (&other, "SELECT 3"), (&failing, "SELECT 4")] {
        assert_eq!(ask(tape, &[query]), [query]);
    }
    one.finish().unwrap();
    let failed = thread::spawn(move || {
        let _tape = failing;
        panic!("a test fails");
    });
    assert!(failed.join().is_err());
    other.finish().unwrap();
    let tape = Options::new().whole().replay(&path).unwrap();
    for query in ["SELECT 1", "SELECT 2", "SELECT 3"] {
        assert_eq!(ask(&tape, &[query]), [query]);
    }
    tape.finish().unwrap();
    assert_eq!(fs::read_dir(path.parent().unwrap()).unwrap().count(), 1);
}

#[test]
fn of_recordings_at_once_each_is_whole() {
    let path = folder("recorded-at-once").join("its.tape");
    let record = || Options::new().server("127.0.0.1", server()).record(&path).unwrap();
    let (one, other) = (record(), record());
    ask(&one, &["SELECT 1"]);
    ask(&other, &["SELECT 2"]);
    other.finish().unwrap();
    one.finish().unwrap();
    let tape = Options::new().whole().replay(&path).unwrap();
    assert_eq!(ask(&tape, &["SELECT 1"]), ["SELECT 1"]);
    tape.finish().unwrap();
}

#[test]
fn a_recording_that_is_missing_or_no_recording_is_named() {
    let path = folder("none").join("none.tape");
    let why = Options::new().replay(&path).unwrap_err();
    assert!(
        why.to_string().contains("none.tape") && why.to_string().contains("PG_TAPE=record"),
        "{why}"
    );
    fs::write(&path, "no recording").unwrap();
    let why = Options::new().replay(&path).unwrap_err();
    assert!(matches!(why, Error::Failed { program: "pg_replay", .. }), "{why}");
}

#[test]
fn options_of_pg_replay_are_passed_on() {
    let path = recorded("options", &["SELECT 1"]);
    let tape = Options::new().arguments(["--any-literal", "number"]).replay(path).unwrap();
    assert_eq!(ask(&tape, &["SELECT 2"]), ["SELECT 1"]);
    tape.finish().unwrap();
}

#[test]
fn an_answer_that_may_be_another_sessions_is_refused() {
    let path = folder("either").join("its.tape");
    let tape = Options::new().server("127.0.0.1", server()).record(&path).unwrap();
    assert_eq!(ask(&tape, &["SELECT 1"]), ["SELECT 1"]);
    assert_eq!(ask(&tape, &["SELECT 2"]), ["SELECT 2"]);
    tape.finish().unwrap();
    let any_number = Options::new().arguments(["--any-literal", "number"]);
    let tape = any_number.clone().replay(&path).unwrap();
    assert!(ask(&tape, &["SELECT 2"]).is_empty());
    let why = tape.finish().unwrap_err();
    assert!(why.to_string().contains("a client may mean either: SELECT 1"), "{why}");
    let tape = any_number.arguments(["--strict=false"]).replay(path).unwrap();
    assert_eq!(ask(&tape, &["SELECT 2"]), ["SELECT 1"]);
    tape.finish().unwrap();
}

#[test]
fn a_run_without_a_client_leaves_the_old_recording() {
    let path = recorded("alone", &["SELECT 1"]);
    let old = fs::read(&path).unwrap();
    let tape = Options::new().server("127.0.0.1", server()).record(&path).unwrap();
    assert!(matches!(tape.finish(), Err(Error::NoClient(_))));
    assert_eq!(fs::read(&path).unwrap(), old);
}

#[test]
fn a_server_that_is_not_there_leaves_the_old_recording() {
    let path = recorded("unreached", &["SELECT 1"]);
    let old = fs::read(&path).unwrap();
    let closed = TcpListener::bind("127.0.0.1:0").unwrap().local_addr().unwrap().port();
    let tape = Options::new().server("127.0.0.1", closed).record(&path).unwrap();
    let mut client = TcpStream::connect((tape.host(), tape.port())).unwrap();
    client.write_all(STARTUP).unwrap();
    let _ = client.read(&mut [0]);
    drop(client);
    let ended = tape.finish();
    assert!(matches!(ended, Err(Error::Failed { program: "pg_record", .. })), "{ended:?}");
    assert_eq!(fs::read(&path).unwrap(), old);
}

/// A recording of one session with these queries.
fn recorded(name: &str, queries: &[&str]) -> PathBuf {
    let path = folder(name).join("its.tape");
    let tape = Options::new().server("127.0.0.1", server()).record(&path).unwrap();
    assert!(tape.is_recorded());
    assert_eq!(ask(&tape, queries), queries);
    tape.finish().unwrap();
    path
}

fn folder(name: &str) -> PathBuf {
    let folder = tempfile::Builder::new().prefix(&format!("pgmsg-testing-{name}-")).tempdir();
    folder.unwrap().into_path()
}

/// Starts a server, and returns its port.
fn server() -> u16 {
    let listener = TcpListener::bind("127.0.0.1:0").unwrap();
    let port = listener.local_addr().unwrap().port();
    thread::spawn(move || listener.incoming().for_each(|stream| answer(stream.unwrap())));
    port
}

/// Answers a client until it leaves.
fn answer(mut stream: TcpStream) {
    let mut length = [0; 4];
    stream.read_exact(&mut length).unwrap();
    let mut startup = vec![0; u32::from_be_bytes(length) as usize - 4];
    stream.read_exact(&mut startup).unwrap();
    stream.write_all(b"R\0\0\0\x08\0\0\0\0Z\0\0\0\x05I").unwrap();
    while let Some((b'Q', query)) = read_frame(&mut stream) {
        let mut out = frame(b'C', &query);
        out.extend(frame(b'Z', b"I"));
        stream.write_all(&out).unwrap();
    }
}

/// Logs in, asks queries, and returns the tags of the commands that answer them.
fn ask(tape: &Tape, queries: &[&str]) -> Vec<String> {
    let mut stream = TcpStream::connect((tape.host(), tape.port())).unwrap();
    stream.write_all(STARTUP).unwrap();
    until_ready(&mut stream);
    let mut tags = Vec::new();
    for query in queries {
        stream.write_all(&frame(b'Q', format!("{query}\0").as_bytes())).unwrap();
        tags.extend(until_ready(&mut stream));
    }
    stream.write_all(&frame(b'X', b"")).unwrap();
    // The program closes the connection once it has taken all.
    let _ = stream.read(&mut [0]);
    tags
}

/// Reads up to ReadyForQuery or the end, and returns the command's tag where one comes.
fn until_ready(stream: &mut TcpStream) -> Option<String> {
    let mut command = None;
    while let Some((tag, body)) = read_frame(stream) {
        match tag {
            b'C' => command = Some(String::from_utf8(body[..body.len() - 1].to_vec()).unwrap()),
            b'Z' => break,
            _ => {}
        }
    }
    command
}

fn frame(tag: u8, body: &[u8]) -> Vec<u8> {
    let length = (body.len() as u32 + 4).to_be_bytes();
    [&[tag], &length[..], body].concat()
}

fn read_frame(stream: &mut TcpStream) -> Option<(u8, Vec<u8>)> {
    let mut head = [0; 5];
    stream.read_exact(&mut head).ok()?;
    let mut body = vec![0; u32::from_be_bytes([head[1], head[2], head[3], head[4]]) as usize - 4];
    stream.read_exact(&mut body).ok()?;
    Some((head[0], body))
}
