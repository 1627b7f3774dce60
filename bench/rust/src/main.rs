//! Times pgmsg and the crate with the interface of postgres-protocol on it beside postgres-protocol, and pgmsg beside
//! Rust by hand, by turns in one process. It prints a row a case: the medians of 31 rounds in nanoseconds a message,
//! and the quotients of all but the last.

mod by_hand;
mod interface;
mod ours;

use bytes::BytesMut;
use interface::{drop_in, original};
use pgmsg::backend::RowIndex;
use std::hint::black_box;
use std::time::Duration;

const ROUNDS: usize = 31;

/// How long each timing takes at least.
const LEAST: Duration = Duration::from_millis(5);

/// What both write: a statement's name, its query, the types and the values of its parameters.
pub struct Query {
    pub statement: &'static str,
    pub query: String,
    pub types: Vec<u32>,
    pub values: Vec<Vec<u8>>,
}

/// The processor time of this process so far.
fn processor_time() -> Duration {
    let mut time = libc::timespec { tv_sec: 0, tv_nsec: 0 };
    // SAFETY: the call fills what it is passed.
    let status = unsafe { libc::clock_gettime(libc::CLOCK_PROCESS_CPUTIME_ID, &mut time) };
    assert_eq!(status, 0);
    Duration::new(time.tv_sec as u64, time.tv_nsec as u32)
}

/// The nanoseconds of one of so many calls.
fn time_of(call: &mut dyn FnMut() -> usize, times: u32) -> f64 {
    let begin = processor_time();
    for _ in 0..times {
        black_box(call());
    }
    (processor_time() - begin).as_nanos() as f64 / f64::from(times)
}

/// As many calls as take long enough.
fn times_of(call: &mut dyn FnMut() -> usize) -> u32 {
    let mut times = 1;
    while time_of(call, times) * f64::from(times) < LEAST.as_nanos() as f64 {
        times *= 2;
    }
    times
}

fn median(mut all: Vec<f64>) -> f64 {
    all.sort_by(f64::total_cmp);
    all[all.len() / 2]
}

/// Takes turns, and prints the row of a case, of which a call has so many messages.
fn compare<const N: usize>(name: &str, messages: u32, mut calls: [&mut dyn FnMut() -> usize; N]) {
    let given: Vec<_> = calls.iter_mut().map(|call| call()).collect();
    assert!(given.iter().all(|it| *it == given[0]), "{name}: they don't give the same");
    let times = calls.iter_mut().map(|call| times_of(call)).fold(1, u32::max);
    let mut taken = [(); N].map(|()| vec![]);
    for _ in 0..ROUNDS {
        for (call, taken) in calls.iter_mut().zip(&mut taken) {
            taken.push(time_of(call, times) / f64::from(messages));
        }
    }
    let taken = taken.map(median);
    let mut cells: Vec<_> = taken.iter().map(|time| format!("{time:.1}")).collect();
    cells.extend(taken[..N - 1].iter().map(|time| format!("{:.2}", time / taken[N - 1])));
    println!("| {name} | {} |", cells.join(" | "));
}

/// A stream of rows, each of so many cells of 8 bytes.
fn rows(count: usize, cells: usize) -> Vec<u8> {
    let mut stream = Vec::new();
    for _ in 0..count {
        stream.push(b'D');
        stream.extend_from_slice(&(6 + 12 * cells as u32).to_be_bytes());
        stream.extend_from_slice(&(cells as u16).to_be_bytes());
        for _ in 0..cells {
            stream.extend_from_slice(b"\0\0\0\x08abcdefgh");
        }
    }
    stream
}

/// Messages with a `Connection`, and without.
fn followed(out: &mut Vec<u8>, index: &mut RowIndex) {
    println!("\n| session | with a Connection, ns | without, ns | quotient |");
    println!("|---|---|---|---|");
    let (mut buffer, mut others) = (Vec::new(), RowIndex::new());
    for cells in [1, 5, 50] {
        let (stream, mut connection) = (rows(200, cells), ours::in_rows());
        let calls: [&mut dyn FnMut() -> usize; 2] =
            [&mut || ours::read_of_request(&stream, &mut connection, out, index), &mut || {
                ours::read(&stream, &mut buffer, &mut others)
            }];
        compare(&format!("row of {cells} cells"), 200, calls);
    }
    let mut connection = pgmsg::Connection::ready();
    let calls: [&mut dyn FnMut() -> usize; 2] =
        [&mut || ours::followed(&mut connection, out), &mut || ours::pipeline(&mut buffer)];
    compare("message of a pipeline", ours::PIPELINE, calls);
}

fn main() {
    println!(
        "| case | pgmsg, ns | drop-in, ns | postgres-protocol, ns | quotient | of the drop-in |"
    );
    println!("|---|---|---|---|---|---|");
    let (mut out, mut index) = (Vec::new(), RowIndex::new());
    let (mut buffer, mut other) = (BytesMut::new(), BytesMut::new());
    for cells in [5, 50] {
        let stream = rows(200, cells);
        let calls: [&mut dyn FnMut() -> usize; 3] = [
            &mut || ours::read(&stream, &mut out, &mut index),
            &mut || drop_in::read(&stream),
            &mut || original::read(&stream),
        ];
        compare(&format!("row of {cells} cells"), 200, calls);
    }
    let query = |values, length| Query {
        statement: "s17",
        query: "x".repeat(86),
        types: vec![25; 8],
        values: vec![vec![b'v'; length]; values],
    };
    let parse = query(0, 0);
    let calls: [&mut dyn FnMut() -> usize; 3] = [
        &mut || ours::parse(&parse, &mut out),
        &mut || drop_in::parse(&parse, &mut buffer),
        &mut || original::parse(&parse, &mut other),
    ];
    compare("Parse of 8 types", 1, calls);
    for (name, bind) in [("8 values", query(8, 8)), ("2 values of 4 KiB", query(2, 4096))] {
        let calls: [&mut dyn FnMut() -> usize; 3] = [
            &mut || ours::run(&bind, &mut out),
            &mut || drop_in::run(&bind, &mut buffer),
            &mut || original::run(&bind, &mut other),
        ];
        compare(&format!("Bind of {name}, Execute and Sync"), 1, calls);
    }
    followed(&mut out, &mut index);
    println!("\n| message of a slot | pgmsg, ns | by hand, ns | quotient |");
    println!("|---|---|---|---|");
    for length in [8, 200] {
        let value = [&[b't', 0, 0, 0, length][..], &b"1".repeat(length.into())].concat();
        let content = [b"I\0\0\x40\x01N\0\x0a", &value.repeat(10)[..]].concat();
        let calls: [&mut dyn FnMut() -> usize; 2] =
            [&mut || ours::insert(&content), &mut || by_hand::insert(&content)];
        compare(&format!("Insert of 10 texts of {length} bytes"), 1, calls);
    }
}
