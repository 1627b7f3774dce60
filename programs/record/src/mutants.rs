//! Random and mutated bytes of both sides, as they are cut into records and printed: nothing panics, all passes, and little
//! is held.

use crate::framer::{Framer, Scan};
use crate::options::LineFormat;
use crate::printer::Printer;
use ::mutants::{Mutants, OF_CLIENT, OF_SERVER};
use lines::trace::Style;
use recording::{RecordKind, Side};

/// How many inputs are taken where it isn't said.
const INPUTS: u64 = 800_000;
/// How many bytes a framer may leave for later.
const LEFT_MOST: usize = 4096;

/// Both sides of a connection, and how many inputs they are.
fn sides(mutants: &mut Mutants) -> [(Side, Vec<u8>, usize); 2] {
    let mut count = || 1 + mutants.below(12);
    let (of_client, of_server) = (count(), count());
    let mut said = mutants.first_bytes();
    said.extend(mutants.messages(&OF_CLIENT, of_client));
    let said = if mutants.flips() { said } else { mutants.mutated(said) };
    let heard = mutants.messages(&OF_SERVER, of_server);
    let heard = if mutants.flips() { heard } else { mutants.mutated(heard) };
    [(Side::Client, said, 1 + of_client), (Side::Server, heard, of_server)]
}

/// Passes a direction through its framer in pieces, and has its records printed.
fn pass(mutants: &mut Mutants, side: Side, bytes: &[u8], printer: &mut Printer) {
    let mut framer = Framer::new(side, mutants.flips(), mutants.flips());
    let (mut held, mut passed, mut found) = (Vec::new(), 0, Scan::default());
    let step = 1 + mutants.below(200);
    for piece in bytes.chunks(step).map(Some).chain([None]) {
        held.extend_from_slice(piece.unwrap_or_default());
        let count = framer.scan(&held, piece.is_none(), &mut found);
        let mut at = 0;
        for record in &found.spans {
            assert!(at <= record.range.start && record.range.end <= count, "{record:?} of {count}");
            at = record.range.end;
            printer.take(1, record.kind, &held[record.range.clone()]);
        }
        held.drain(..count);
        assert!(held.len() < LEFT_MOST);
        passed += count;
    }
    assert_eq!(passed, bytes.len());
}

#[test]
fn anything_that_passes_is_recorded_and_printed() {
    let mut mutants = Mutants::of_variables(INPUTS);
    while mutants.go_on() {
        let format = [
            LineFormat::Server,
            LineFormat::Lines,
            LineFormat::Trace(Style::AsLibpq),
            LineFormat::Trace(Style::Whole),
        ][mutants.below(4)];
        let mut printer = Printer::new(format, None, mutants.flips());
        printer.take(1, RecordKind::Opened, b"[local]");
        for (side, bytes, count) in sides(&mut mutants) {
            pass(&mut mutants, side, &bytes, &mut printer);
            mutants.took(count);
        }
        printer.take(1, RecordKind::Closed, b"F");
        let lines = std::mem::take(printer.lines());
        assert!(
            !lines.iter().any(|it| *it < b' ' && !matches!(it, b'\n' | b'\t')),
            "a control character is printed"
        );
    }
    mutants.end("first bytes and messages of both sides, recorded and printed");
}
