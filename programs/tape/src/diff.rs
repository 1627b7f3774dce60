//! Two recordings, compared exchange by exchange.

use crate::event::{EventKind, RawMessage};
use crate::exchange_numbers::ExchangeNumbers;
use crate::failure::{Result, TapeFailure, TapeStatus};
use crate::line::LineWriter;
use crate::progress::Progress;
use crate::recording_file::RecordingFile;
use lines::escape;
use recording::Side;
use similar::{capture_diff_slices_deadline, group_diff_ops, Algorithm, ChangeTag, DiffOp};
use std::collections::BTreeMap;
use std::hash::Hash;
use std::io::{self, Write};
use std::path::Path;
use std::time::{Duration, Instant};

/// How many lines around a difference are shown.
const AROUND: usize = 3;
/// How long the fewest differences are looked for, of the exchanges of a connection, or of the lines of an exchange.
const PATIENCE: Duration = Duration::from_secs(3);

/// What both sides say in an exchange, a line each message.
#[derive(Debug, Default, PartialEq, Eq)]
struct ExchangeLines {
    client: Vec<String>,
    server: Vec<String>,
}

impl ExchangeLines {
    fn lines(&self) -> Vec<&str> {
        self.client.iter().chain(&self.server).map(String::as_str).collect()
    }
}

/// The exchanges of each connection.
type ExchangesByConnection = BTreeMap<u32, Vec<ExchangeLines>>;

/// Prints where two recordings differ, and tells whether they do. Times, addresses, keys and passwords may differ.
pub fn diff(one: &Path, other: &Path) -> Result<TapeStatus> {
    let progress = Progress::new("diff", &[one, other]);
    let (ones, others) = (sessions(one, &progress)?, sessions(other, &progress)?);
    drop(progress);
    let mut out = Vec::new();
    let count = put_sessions(&mut out, [(one, &ones), (other, &others)]);
    match io::stdout().write_all(&out) {
        Err(why) => Err(TapeFailure::unwritten(Path::new("standard output"), &why)),
        Ok(()) if count > 0 => Ok(TapeStatus::Different),
        Ok(()) => Ok(TapeStatus::Ok),
    }
}

/// Reads the exchanges of a recording.
fn sessions(path: &Path, progress: &Progress) -> Result<ExchangesByConnection> {
    let mut recording = RecordingFile::open(path, progress)?;
    let (mut sessions, mut exchanges, mut writer) =
        (ExchangesByConnection::new(), ExchangeNumbers::default(), LineWriter::default());
    recording.events(|event| {
        let session = sessions.entry(event.connection).or_default();
        let number = exchanges.number(event.connection, &event.kind).unwrap_or_default() as usize;
        if let Some((side, line)) = line(&event.kind, &mut writer) {
            if session.len() <= number {
                session.resize_with(number + 1, ExchangeLines::default);
            }
            match side {
                Side::Client => session[number].client.push(line),
                Side::Server => session[number].server.push(line),
            }
        }
        Ok(())
    })?;
    recording.say_cut();
    Ok(sessions)
}

/// The line of an event that is compared.
fn line(kind: &EventKind<'_>, writer: &mut LineWriter) -> Option<(Side, String)> {
    match kind {
        EventKind::Message { side, message, .. } => Some((*side, shown(*side, message, writer))),
        EventKind::LeftOut { side, tag, .. } => {
            let tag = escape(char::from(*tag).to_string().as_bytes());
            Some((*side, format!("{} {tag} left out", name(*side))))
        }
        EventKind::Bytes { side, bytes } => {
            Some((*side, format!("{} bytes {}", name(*side), escape(bytes))))
        }
        _ => None,
    }
}

fn name(side: Side) -> &'static str {
    match side {
        Side::Client => "client",
        Side::Server => "server",
    }
}

/// A message by its kind and its fields; of a secret one the kind alone.
fn shown(side: Side, message: &RawMessage<'_>, writer: &mut LineWriter) -> String {
    let content = writer.message(side, message);
    let is_secret = match side {
        Side::Client => pgmsg::frontend::Message::read_body(message.tag, message.body())
            .is_ok_and(|it| it.is_secret()),
        Side::Server => pgmsg::backend::Message::read_body(message.tag, message.body())
            .is_ok_and(|it| it.is_secret()),
    };
    let fields = match is_secret {
        true => String::new(),
        false => serde_json::to_string(&content).unwrap_or_default(),
    };
    let fields = if fields == "{}" { "" } else { &fields };
    let line = format!("{} {} {}", name(side), content.kind(), escape(fields.as_bytes()));
    line.trim_end().to_owned()
}

/// Adds the differences of all connections, and counts them.
fn put_sessions(out: &mut Vec<u8>, both: [(&Path, &ExchangesByConnection); 2]) -> usize {
    let [(_, ones), (_, others)] = both;
    let mut numbers: Vec<u32> = ones.keys().chain(others.keys()).copied().collect();
    numbers.sort_unstable();
    numbers.dedup();
    let mut count = 0;
    for number in numbers {
        match (ones.get(&number), others.get(&number)) {
            (Some(one), Some(other)) => count += put_session(out, number, one, other),
            (one, _) => {
                let path = if one.is_some() { both[0].0 } else { both[1].0 };
                put(out, &format!("connection {number} is in {} alone", path.display()));
                count += 1;
            }
        }
    }
    count
}

fn put(out: &mut Vec<u8>, line: &str) {
    out.extend_from_slice(line.as_bytes());
    out.push(b'\n');
}

/// Adds the differences of a connection: exchanges of one alone, and those whose answers differ.
fn put_session(
    out: &mut Vec<u8>,
    number: u32,
    one: &[ExchangeLines],
    other: &[ExchangeLines],
) -> usize {
    let requests =
        |all: &[ExchangeLines]| all.iter().map(|it| it.client.clone()).collect::<Vec<_>>();
    let none = ExchangeLines::default();
    let mut count = 0;
    for op in changes(&requests(one), &requests(other), PATIENCE) {
        let (left, right) = (op.old_range(), op.new_range());
        for at in 0..left.len().max(right.len()) {
            let (left, right) = (left.clone().nth(at), right.clone().nth(at));
            let pair = (left.map_or(&none, |at| &one[at]), right.map_or(&none, |at| &other[at]));
            if pair.0 != pair.1 {
                put(out, &heading(number, left, right));
                put_exchange(out, &pair.0.lines(), &pair.1.lines());
                count += 1;
            }
        }
    }
    count
}

/// How one list becomes the other by the fewest changes, or, after a while, by more: what is left of both counts as different
/// then, since the time grows with the square of what differs.
fn changes<T: Eq + Hash + Ord>(one: &[T], other: &[T], patience: Duration) -> Vec<DiffOp> {
    let deadline = Instant::now() + patience;
    capture_diff_slices_deadline(Algorithm::Myers, one, other, Some(deadline))
}

fn heading(connection: u32, left: Option<usize>, right: Option<usize>) -> String {
    match (left, right) {
        (Some(left), Some(right)) if left == right => {
            format!("connection {connection}, exchange {left}:")
        }
        (Some(left), Some(right)) => {
            format!("connection {connection}, exchange {left}, now {right}:")
        }
        (Some(left), None) => {
            format!("connection {connection}, exchange {left}, of the first alone:")
        }
        (None, right) => format!(
            "connection {connection}, exchange {}, of the second alone:",
            right.unwrap_or_default()
        ),
    }
}

/// Adds the lines of an exchange that differ, and some around them.
fn put_exchange(out: &mut Vec<u8>, one: &[&str], other: &[&str]) {
    let ops = changes(one, other, PATIENCE);
    for (at, group) in group_diff_ops(ops, AROUND).iter().enumerate() {
        if at > 0 {
            put(out, "  ..");
        }
        for change in group.iter().flat_map(|op: &DiffOp| op.iter_changes(one, other)) {
            let sign = match change.tag() {
                ChangeTag::Equal => ' ',
                ChangeTag::Delete => '-',
                ChangeTag::Insert => '+',
            };
            put(out, &format!("{sign} {}", change.value()));
        }
    }
}

#[cfg(test)]
mod tests {
    use super::*;
    use rand::rngs::SmallRng;
    use rand::{Rng, SeedableRng};

    /// What is left of lists, and what comes to them, by their changes.
    fn applied(one: &[u32], other: &[u32], patience: Duration) -> (Vec<u32>, Vec<u32>) {
        let (mut ones, mut others) = (Vec::new(), Vec::new());
        for op in changes(one, other, patience) {
            for change in op.iter_changes(one, other) {
                let (is_old, is_new) =
                    (change.tag() != ChangeTag::Insert, change.tag() != ChangeTag::Delete);
                ones.extend(is_old.then(|| change.value()));
                others.extend(is_new.then(|| change.value()));
            }
        }
        (ones, others)
    }

    #[test]
    fn changes_are_right_however_long_they_are_looked_for() {
        let mut random = SmallRng::seed_from_u64(6);
        for _ in 0..500 {
            let [one, other] = [(); 2].map(|()| {
                let count = random.gen_range(0..40);
                (0..count).map(|_| random.gen_range(0..8)).collect::<Vec<u32>>()
            });
            for patience in [Duration::ZERO, Duration::from_nanos(2_000), PATIENCE] {
                assert_eq!(applied(&one, &other, patience), (one.clone(), other.clone()));
            }
        }
    }

    #[test]
    fn many_lines_that_all_differ_take_no_longer_than_they_may() {
        let one: Vec<u32> = (0..300_000).collect();
        let other: Vec<u32> = (300_000..600_000).collect();
        let begun = Instant::now();
        assert_eq!(applied(&one, &other, Duration::from_millis(100)), (one, other));
        assert!(begun.elapsed() < Duration::from_secs(60), "{:?}", begun.elapsed());
    }

    #[test]
    fn what_turns_a_text_is_escaped() {
        let kind = EventKind::Bytes { side: Side::Client, bytes: "a\u{202e}b".as_bytes().into() };
        let wanted = (Side::Client, r"client bytes a\xe2\x80\xaeb".to_owned());
        assert_eq!(line(&kind, &mut LineWriter::default()), Some(wanted));
    }

    #[test]
    fn the_tag_of_a_message_that_is_left_out_is_escaped() {
        let table = [(b'p', "p"), (0x1b, r"\x1b"), (0x9b, r"\xc2\x9b"), (0xe9, "\u{e9}")];
        for (tag, shown) in table {
            let kind = EventKind::LeftOut { side: Side::Client, tag, length: 9 };
            let wanted = (Side::Client, format!("client {shown} left out"));
            assert_eq!(line(&kind, &mut LineWriter::default()), Some(wanted));
        }
    }
}
