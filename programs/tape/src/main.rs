//! Exports, imports, edits, compares, checks, redacts and shows recordings.
#![forbid(unsafe_code)]

mod check;
mod client;
mod conversions;
mod diff;
#[cfg(test)]
mod edits;
mod error_fields;
mod event;
mod event_decoder;
mod event_queue;
mod exchange_numbers;
mod export;
mod failure;
mod fields;
mod import;
mod json;
mod json_bytes;
mod layout;
mod line;
mod merge;
#[cfg(test)]
mod mutants;
mod options;
mod output;
mod parse;
mod progress;
mod record_assembler;
mod recording_file;
mod redact;
mod remove;
#[cfg(test)]
mod roundtrip;
#[cfg(test)]
mod samples;
mod selection;
mod server;
mod split;
mod stream_state;
mod view;

use clap::Parser;
use failure::{Result, TapeStatus};
use options::{Command, TapeOptions};
use std::fmt::Display;
use std::io::{self, Write};
use std::process::ExitCode;

/// Says a line on standard error, where that can be written.
fn say(words: impl Display) {
    let _ = writeln!(io::stderr(), "pg_tape: {words}");
}

fn run(command: &Command) -> Result<TapeStatus> {
    match command {
        Command::Export { tape, output } => export::export(tape, output.as_deref())?,
        Command::Import { file, output } => import::import(file, output)?,
        Command::Merge { tapes, output } => merge::merge(tapes, output)?,
        Command::Drop { tape, connections, keep, output } => {
            remove::remove(tape, connections, *keep, output)?
        }
        Command::Split { tape, folder } => split::split(tape, folder)?,
        Command::Redact { tape, rules, output } => {
            return redact::redact(tape, rules.as_deref(), output)
        }
        Command::View { tape, output } => view::view(tape, output)?,
        Command::Diff { one, other } => return diff::diff(one, other),
        Command::Check { tape } => return check::check(tape),
    }
    Ok(TapeStatus::Ok)
}

fn main() -> ExitCode {
    let status = run(&TapeOptions::parse().command).unwrap_or_else(|failure| {
        if failure.has_words() {
            say(&failure);
        }
        failure.status
    });
    ExitCode::from(status as u8)
}
