//! Recordings that are merged, cut down, split and compared.

use crate::diff::diff;
use crate::failure::TapeStatus;
use crate::merge::merge;
use crate::remove::remove;
use crate::samples::{self, TempFile};
use crate::selection::ConnectionRange;
use crate::split::split;
use recording::{Reader, RecordKind, Side, Writer};
use std::path::PathBuf;

/// A recording's connections with what both sides say, in the order of their numbers.
fn sessions(tape: &[u8]) -> Vec<(Vec<u8>, Vec<u8>)> {
    let mut sessions = Vec::new();
    let mut reader = Reader::new(tape).unwrap();
    while let Some(record) = reader.read().unwrap() {
        let at = record.connection as usize - 1;
        match record.kind {
            RecordKind::Opened => sessions.push((Vec::new(), Vec::new())),
            RecordKind::Bytes(Side::Client) => sessions[at].0.extend_from_slice(record.content),
            RecordKind::Bytes(Side::Server) => sessions[at].1.extend_from_slice(record.content),
            _ => {}
        }
    }
    sessions
}

/// A recording that begins at a time, of sessions that ask for something at times, and are answered at once.
fn asking(begun: u64, sessions: &[&[(u64, &str, &str)]]) -> Vec<u8> {
    let mut file = Vec::new();
    let mut out = Writer::new(&mut file, begun).unwrap();
    for (at, questions) in sessions.iter().enumerate() {
        let number = at as u32 + 1;
        let first = questions.first().map_or(0, |it| it.0);
        out.add(RecordKind::Opened, number, first, b"").unwrap();
        out.add(RecordKind::Bytes(Side::Client), number, first, b"\0\0\0\x09\0\x03\0\0\0").unwrap();
        out.add(RecordKind::Bytes(Side::Server), number, first, b"Z\0\0\0\x05I").unwrap();
        for (time, query, command) in *questions {
            let (mut asked, mut answered) = (Vec::new(), Vec::new());
            pgmsg::frontend::Message::Query(query.into()).write(&mut asked).unwrap();
            pgmsg::backend::Message::CommandComplete(command.into()).write(&mut answered).unwrap();
            answered.extend_from_slice(b"Z\0\0\0\x05I");
            out.add(RecordKind::Bytes(Side::Client), number, *time, &asked).unwrap();
            out.add(RecordKind::Bytes(Side::Server), number, *time, &answered).unwrap();
        }
        out.add(RecordKind::Closed, number, questions.last().map_or(0, |it| it.0), b"F").unwrap();
    }
    out.end().unwrap();
    file
}

#[test]
fn merged_recordings_stand_in_the_order_of_their_times() {
    let one = asking(1_000, &[&[(10, "a", "A"), (30, "b", "B")]]);
    let other = asking(1_005, &[&[(10, "c", "C"), (50, "d", "D")]]);
    let files = [TempFile::with("merge.one", &one), TempFile::with("merge.other", &other)];
    let merged = TempFile::new("merge.both");
    for order in [[0, 1], [1, 0]] {
        let paths: Vec<PathBuf> = order.iter().map(|at: &usize| files[*at].0.clone()).collect();
        merge(&paths, merged.path()).unwrap();
        let tape = merged.bytes();
        assert_eq!(sessions(&tape), [sessions(&one), sessions(&other)].concat());
        let mut reader = Reader::new(&tape[..]).unwrap();
        let (mut times, begun) = (Vec::new(), reader.begun());
        while let Some(record) = reader.read().unwrap() {
            times.push(record.time);
        }
        assert!(begun == 1_000 && times.windows(2).all(|it| it[0] <= it[1]));
        assert_eq!((times.first(), times.last()), (Some(&10), Some(&55)));
    }
}

#[test]
fn connections_are_dropped_or_kept() {
    let tape = samples::recording(1, false);
    let all = sessions(&tape);
    let (from, to) = (TempFile::with("drop", &tape), TempFile::new("drop.to"));
    let table: [(&[ConnectionRange], bool, &[usize]); 4] = [
        (&[ConnectionRange(2..=2)], false, &[0, 2, 3, 4]),
        (&[ConnectionRange(2..=2)], true, &[1]),
        (&[ConnectionRange(1..=2), ConnectionRange(4..=4)], false, &[2, 4]),
        (&[ConnectionRange(1..=5)], false, &[]),
    ];
    for (named, keeps, left) in table {
        remove(from.path(), named, keeps, to.path()).unwrap();
        let wanted: Vec<_> = left.iter().map(|at| all[*at].clone()).collect();
        assert_eq!(sessions(&to.bytes()), wanted, "{named:?}");
    }
    std::fs::remove_file(to.path()).unwrap();
    let failure =
        remove(from.path(), &[ConnectionRange(1..=1), ConnectionRange(6..=9)], false, to.path())
            .unwrap_err();
    assert_eq!(failure.status, TapeStatus::Usage);
    assert!(failure.to_string().ends_with("has no connection 6-9") && !to.path().exists());
}

#[test]
fn a_recording_that_is_split_and_merged_says_the_same() {
    let tape = samples::recording(2, false);
    let from = TempFile::with("split", &tape);
    let folder = std::env::temp_dir().join(format!("pg_tape.{}.parts", std::process::id()));
    split(from.path(), &folder).unwrap();
    assert!(split(from.path(), &folder).unwrap_err().to_string().contains("is there already"));
    let mut paths: Vec<PathBuf> =
        std::fs::read_dir(&folder).unwrap().map(|it| it.unwrap().path()).collect();
    paths.sort();
    let parts: Vec<_> =
        paths.iter().flat_map(|path| sessions(&std::fs::read(path).unwrap())).collect();
    let merged = TempFile::new("split.merged");
    merge(&paths, merged.path()).unwrap();
    std::fs::remove_dir_all(&folder).unwrap();
    assert_eq!((parts.len(), &parts), (5, &sessions(&tape)));
    assert_eq!(merged.bytes().len(), tape.len());
    assert_eq!(sessions(&merged.bytes()).len(), 5);
}

#[test]
fn recordings_are_compared() {
    let one = asking(0, &[&[(1, "a", "A"), (2, "b", "B")], &[(3, "c", "C")]]);
    let table = [
        (asking(7, &[&[(5, "a", "A"), (9, "b", "B")], &[(9, "c", "C")]]), TapeStatus::Ok),
        (asking(0, &[&[(1, "a", "A"), (2, "b", "X")], &[(3, "c", "C")]]), TapeStatus::Different),
        (asking(0, &[&[(1, "a", "A")], &[(3, "c", "C")]]), TapeStatus::Different),
        (asking(0, &[&[(1, "a", "A"), (2, "b", "B")]]), TapeStatus::Different),
    ];
    let from = TempFile::with("diff.one", &one);
    for (at, (other, status)) in table.into_iter().enumerate() {
        let other = TempFile::with("diff.other", &other);
        assert_eq!(diff(from.path(), other.path()).unwrap(), status, "{at}");
        assert_eq!(diff(other.path(), from.path()).unwrap(), status, "{at}");
    }
}
