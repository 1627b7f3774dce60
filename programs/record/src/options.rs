//! The arguments of the program.

use clap::Parser;
use lines::trace::Style;
use net::{ExitStatus, ListenOptions, ServerOptions};
use std::ffi::OsString;
use std::path::PathBuf;
use std::process;

pub const USAGE: &str =
    "pg_record [-h HOST] [-p PORT] -o FILE [OPTION..] [LISTEN_PORT] -- COMMAND [ARGUMENT..]
       pg_record [-h HOST] [-p PORT] [-1] [-o FILE] [OPTION..] [LISTEN_PORT]
       pg_record --print FILE [--trace[=whole] | --stream] [--numbers | --only NUMBER]";

const ABOUT: &str = "\
Passes connections on to the server at HOST and PORT, and records or prints what both sides send. Clients connect to port \
LISTEN_PORT of 127.0.0.1 (0 takes a free port) and to each address of --listen. Without -o, --trace and --stream, the program \
prints a line for each message of the server.

With COMMAND the program listens on a free port unless one is named, runs the command with PGHOST and PGPORT set to its own \
address, and ends when the command ends, with the status of the command: 128 plus the number of the signal that ended it, 127 if \
there is no such command, 126 if it can't be run. Signals are passed on to the command. FILE gets its name at the end, if a \
session was recorded.";

const AFTER: &str = "\
Encryption: without --cert or --encryption, clients that ask for encryption are told that there is none. Channel binding ties a \
login to the certificate that the client sees. Where only one side uses TLS, or --cert isn't the server's own certificate, the \
program therefore takes SCRAM-SHA-256-PLUS out of the server's offer. A client with TLS then reports that it could have used \
channel binding, and the server refuses this as an attack, unless the client has channel_binding=disable. With the server's own \
certificate and key as --cert and --key, channel binding works. Requests to cancel a query are passed on, and counted at the end.";

/// What the arguments ask for.
#[derive(Parser, Debug)]
#[command(name = "pg_record", version = concat!(env!("CARGO_PKG_VERSION"), " plain build"))]
#[command(about = ABOUT, after_help = AFTER, override_usage = USAGE)]
#[command(disable_help_flag = true)]
pub struct RecordOptions {
    /// The port of 127.0.0.1 to listen on, 0 for a free one; with --folder, the port in the name of the socket
    #[arg(value_name = "LISTEN_PORT", required_unless_present_any = ["print", "listen", "command"])]
    pub listen_port: Option<u16>,
    #[command(flatten)]
    pub server: ServerOptions,
    #[command(flatten)]
    pub listening: ListenOptions,
    /// End after the first session
    #[arg(short = '1')]
    pub is_single: bool,
    /// Record both sides to a new file
    #[arg(short = 'o', value_name = "FILE")]
    pub output: Option<PathBuf>,
    /// Replace an existing FILE at the end, if a session was recorded
    #[arg(long, requires = "output")]
    pub replace: bool,
    /// Print the messages of both sides as libpq's PQtrace does, but write control characters other than line feed and tab
    /// as \x and two hexadecimal digits. With =whole, also print first messages and the data of a COPY in full, of which
    /// PQtrace shows little
    #[arg(long, value_name = "whole", num_args = 0..=1, require_equals = true, default_missing_value = "")]
    #[arg(value_parser = style, overrides_with = "stream")]
    trace: Option<Style>,
    /// Print the messages of both sides by their names, with their fields in hexadecimal digits
    #[arg(long, overrides_with = "trace")]
    stream: bool,
    /// Begin each line with the number of its connection
    #[arg(long)]
    pub numbers: bool,
    /// Print only the connection with this number
    #[arg(long, value_name = "NUMBER", value_parser = clap::value_parser!(u32).range(1..))]
    pub only: Option<u32>,
    /// Record passwords and the messages of SASL too
    #[arg(long)]
    pub passwords: bool,
    /// Let the server answer requests for encryption, and pass encrypted bytes on unread
    #[arg(long, conflicts_with_all = ["cert", "sslmode"])]
    pub encryption: bool,
    /// Keep sessions going when FILE can't be written any more, instead of ending them
    #[arg(long)]
    pub keep_passing: bool,
    /// Print a recording, as --stream does or, with --trace, as --trace does
    #[arg(long, value_name = "FILE", conflicts_with_all = ["output", "listen_port", "listen"])]
    pub print: Option<PathBuf>,
    /// The command to run, with its arguments
    #[arg(last = true, value_name = "COMMAND", requires = "output")]
    #[arg(conflicts_with_all = ["is_single", "trace", "stream"])]
    pub command: Vec<OsString>,
    /// Print this help
    #[arg(long, action = clap::ArgAction::Help)]
    help: Option<bool>,
}

fn style(text: &str) -> Result<Style, String> {
    match text {
        "" => Ok(Style::AsLibpq),
        "whole" => Ok(Style::Whole),
        _ => Err("it is `whole` or nothing".to_owned()),
    }
}

/// How messages are printed.
#[derive(Clone, Copy, Debug, PartialEq, Eq)]
pub enum LineFormat {
    /// Messages of the server, as `pg_tool stream` does.
    Server,
    /// Also those of the client, as `pg_tool server stream` does.
    Lines,
    /// Both, as libpq's PQtrace does.
    Trace(Style),
}

impl RecordOptions {
    /// Reads them, or ends the program by words about them.
    pub fn read() -> RecordOptions {
        RecordOptions::try_parse().unwrap_or_else(|error| {
            if !error.use_stderr() {
                let _ = error.print();
                process::exit(ExitStatus::Ok as i32);
            }
            eprint!("{error}");
            eprintln!("usage: {USAGE}");
            process::exit(ExitStatus::Usage as i32);
        })
    }

    /// The port to listen on: a free one for a command where no address is named.
    pub fn port(&self) -> Option<u16> {
        let is_free = !self.command.is_empty() && self.listening.listen.is_empty();
        self.listen_port.or_else(|| is_free.then_some(0))
    }

    /// How messages are printed, where that is asked for.
    pub fn format(&self) -> Option<LineFormat> {
        match self.trace {
            Some(style) => Some(LineFormat::Trace(style)),
            None => Some(LineFormat::Lines).filter(|_| self.stream),
        }
    }
}

#[cfg(test)]
mod tests {
    use super::*;

    fn parsed(words: &[&str]) -> Result<RecordOptions, clap::Error> {
        RecordOptions::try_parse_from(["pg_record"].iter().chain(words))
    }

    #[test]
    fn the_forms_of_the_arguments() {
        assert!(parsed(&["-h", "db", "-p", "5433", "-1", "-o", "file", "0"]).is_ok());
        assert!(parsed(&["--listen", "[::1]:5432", "--listen", "/run:5432"]).is_ok());
        assert!(parsed(&["-o", "file", "--replace", "0"]).is_ok());
        for wrong in [
            &[][..],
            &["1", "2"],
            &["65536"],
            &["--only", "0", "0"],
            &["--threads", "65", "0"],
            &["--threads", "0", "0"],
            &["--trace=half", "0"],
            &["--print", "file", "0"],
            &["--print", "file", "-o", "other"],
            &["--cert", "own.crt", "0"],
            &["--encryption", "--sslmode", "require", "0"],
            &["--sslmode", "always", "0"],
            &["--replace", "0"],
            &["--", "psql"],
            &["-o", "file", "psql"],
            &["-o", "file", "-1", "--", "psql"],
            &["-o", "file", "--trace", "--", "psql"],
            &["-o", "file", "--"],
        ] {
            assert!(parsed(wrong).is_err(), "{wrong:?}");
        }
    }

    #[test]
    fn a_command_has_a_free_port_where_none_is_named() {
        for (words, port) in [
            (&["-o", "file", "--", "psql", "-c", "SELECT 1"][..], Some(0)),
            (&["-o", "file", "5433", "--", "psql", "-c", "SELECT 1"], Some(5433)),
            (&["-o", "file", "--listen", "5433", "--", "psql", "-c", "SELECT 1"], None),
        ] {
            let options = parsed(words).unwrap();
            assert_eq!(options.port(), port, "{words:?}");
            assert_eq!(options.command, ["psql", "-c", "SELECT 1"], "{words:?}");
        }
    }

    #[test]
    fn the_last_kind_of_line_is_taken() {
        let format = |words: &[&str]| parsed(words).unwrap().format();
        assert_eq!(format(&["0"]), None);
        assert_eq!(format(&["--trace", "0"]), Some(LineFormat::Trace(Style::AsLibpq)));
        assert_eq!(format(&["--trace=whole", "0"]), Some(LineFormat::Trace(Style::Whole)));
        assert_eq!(format(&["--trace", "--stream", "0"]), Some(LineFormat::Lines));
        assert_eq!(format(&["--stream", "--trace", "0"]), Some(LineFormat::Trace(Style::AsLibpq)));
    }
}
