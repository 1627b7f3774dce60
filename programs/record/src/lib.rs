//! Passes connections on to a server, and records or prints what both sides say; prints a recording. What pg_replay takes of
//! that is public.
#![forbid(unsafe_code)]

mod encryption;
mod forwarder;
mod framer;
mod options;
mod pass;
mod poll_on_wake;
mod print;
mod printer;
mod proxy;
mod record_sink;
mod replaced_file;
mod serve;
mod session;
mod shutdown;
mod stdout;

#[cfg(test)]
mod mutants;

pub use pass::{pass, Link, LinkStart};
pub use record_sink::{RecordSink, RecordingOutput, Stopped};
pub use session::LinkError;

use net::{ExitStatus, Failure, StderrWriter};
use options::RecordOptions;
use std::process;

fn run(options: &RecordOptions, stderr: &StderrWriter) -> Result<u8, Failure> {
    match &options.print {
        Some(path) => print::print(path, options, stderr).map(|status| status as u8),
        None => serve::serve(options, stderr),
    }
}

/// Runs the program, and ends the process by its status.
pub fn main() -> ! {
    let options = RecordOptions::read();
    let stderr = StderrWriter::new("pg_record");
    let status = run(&options, &stderr).unwrap_or_else(|failure| {
        stderr.say(&failure);
        if failure.status == ExitStatus::Usage {
            stderr.say_plain(format!("usage: {}", options::USAGE));
        }
        failure.status as u8
    });
    stderr.end();
    // Threads that wait for a pipe which nobody reads end here.
    process::exit(status.into());
}
