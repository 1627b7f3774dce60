//! The arguments of the program.

use crate::selection::ConnectionRange;
use clap::{Parser, Subcommand};
use std::path::PathBuf;

/// Exports, imports, edits, compares, checks, redacts and shows recordings of pg_record.
///
/// Ends with status 0; 1 if two recordings differ; 2 for wrong arguments or rules; 7 if a file can't be read or written; 10 if a
/// recording, or an export of one, is damaged; 13 if a redacted recording may have more secrets; 14 if a session breaks the order
/// of the protocol. An output file gets its name when all of it is written, and replaces a file of that name, unless another
/// program has changed that file meanwhile.
#[derive(Parser, Debug)]
#[command(name = "pg_tape", version = concat!(env!("CARGO_PKG_VERSION"), " plain build"))]
#[command(disable_help_subcommand = true)]
pub struct TapeOptions {
    #[command(subcommand)]
    pub command: Command,
}

#[derive(Subcommand, Debug)]
pub enum Command {
    /// Writes a recording as JSON Lines, a message a line
    ///
    /// recording.schema.json describes the lines: the connection, the time in microseconds, the side, the kind by its name in
    /// PostgreSQL's documentation, and the fields of the kind. Bytes that are no text are {"base64": ".."}. `import` makes
    /// the same recording of the lines.
    Export {
        /// The recording
        tape: PathBuf,
        /// The file to write, instead of standard output
        #[arg(short, long, value_name = "FILE")]
        output: Option<PathBuf>,
    },
    /// Makes a recording of JSON Lines that were exported
    ///
    /// If a line has a fault, the program names the line and writes no recording. `apart` says that a new record begins with
    /// the message; `here`, how many bytes of the message are in this record, the rest of which lines of the kind Continued
    /// hold.
    Import {
        /// The lines
        file: PathBuf,
        /// The recording to write
        #[arg(short, long, value_name = "TAPE")]
        output: PathBuf,
    },
    /// Joins recordings to one
    ///
    /// Records are sorted by their times, and connections numbered anew in the order in which they were opened.
    Merge {
        /// The recordings
        #[arg(required = true, value_name = "TAPE")]
        tapes: Vec<PathBuf>,
        /// The recording to write
        #[arg(short, long, value_name = "TAPE")]
        output: PathBuf,
    },
    /// Takes sessions out of a recording
    ///
    /// The connections that are left are numbered anew.
    Drop {
        /// The recording
        tape: PathBuf,
        /// Connections by their numbers, as 3 or 5-7
        #[arg(required = true, value_name = "CONNECTION")]
        connections: Vec<ConnectionRange>,
        /// Keep these, and take out the others
        #[arg(long)]
        keep: bool,
        /// The recording to write
        #[arg(short, long, value_name = "TAPE")]
        output: PathBuf,
    },
    /// Writes each session of a recording to a file of its own
    ///
    /// The files are named after the connections, as 000012.tape. No existing file is overwritten.
    Split {
        /// The recording
        tape: PathBuf,
        /// The folder for the files, which is made if it is missing
        #[arg(short = 'o', long = "output", value_name = "FOLDER")]
        folder: PathBuf,
    },
    /// Compares two recordings exchange by exchange
    ///
    /// Prints the differences in what clients send and in the answers: lines that begin with `-` are only in the first
    /// recording, lines that begin with `+` only in the second. Connections with the same number are compared. Times, addresses,
    /// passwords and keys may differ. Ends with status 1 if something differs. Both recordings are held in memory.
    Diff {
        /// A recording
        #[arg(value_name = "TAPE")]
        one: PathBuf,
        /// Another one
        #[arg(value_name = "OTHER_TAPE")]
        other: PathBuf,
    },
    /// Finds where sessions of a recording break the order of the protocol
    ///
    /// Each message is to be one that may come where it came, as PostgreSQL's documentation has it in "Message Flow": what a
    /// client asks for, and what answers that. Prints a line for the first message of a session that can't come there, with
    /// what could have come in its place; what else the session has isn't looked at. The last line counts the sessions and the
    /// messages that were followed. An encrypted session, one with a message of more than 4 MiB, and one whose client ends the
    /// data of a COPY before the server asks for them can't be followed to their end. Ends with status 14 if a session breaks
    /// the order.
    Check {
        /// The recording
        tape: PathBuf,
    },
    /// Takes secrets out of a recording
    ///
    /// Without rules, the passwords in SQL and in logins are masked, verifiers of SCRAM-SHA-256 and MD5, and the keys of
    /// BackendKeyData and CancelRequest. A TOML file of rules, which may also have those of a replay, names other secrets:
    /// `[[redact.column]]` (name); `[[redact.parameter]]` (statement, positions); `[[redact.statement]]` (pattern) for the
    /// literals and parameters of the statements that the pattern matches; `[[redact.text]]` (pattern) for the first group of
    /// the pattern, or all of its match, in any text, name or value. A password becomes `xxxxxxxx`, and any other secret a value
    /// of its length and type, wherever the secret stands in the recording. The program says which rules matched nothing.
    /// It says how many values may still be secrets, and then ends with status 13.
    Redact {
        /// The recording
        tape: PathBuf,
        /// The rules
        #[arg(short, long, value_name = "FILE")]
        rules: Option<PathBuf>,
        /// The recording to write
        #[arg(short, long, value_name = "TAPE")]
        output: PathBuf,
    },
    /// Makes a page in HTML that shows a recording
    ///
    /// The page is one file that needs no network. It has connections as lanes over time, the messages with their fields, and the
    /// exchanges, the slowest first. It contains the secrets of the recording.
    View {
        /// The recording
        tape: PathBuf,
        /// The page to write
        #[arg(short, long, value_name = "FILE.html")]
        output: PathBuf,
    },
}
