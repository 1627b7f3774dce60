//! The options, and what is wrong with them.

use crate::fingerprint::LiteralKind;
use crate::rules::ReplayRules;
use clap::Parser;
use net::{Address, ExitStatus, Failure, ListenOptions, ServerOptions};
use std::ffi::OsString;
use std::path::PathBuf;
use std::time::Duration;

/// The longest path of a Unix socket.
const PATH_MOST: usize = 107;

const FORM: &str = "pg_replay [OPTION..] FILE [LISTEN_PORT] -- COMMAND [ARGUMENT..]
       pg_replay [OPTION..] FILE LISTEN_PORT";
pub const USAGE: &str = "usage: pg_replay [OPTION..] FILE [LISTEN_PORT] -- COMMAND [ARGUMENT..]
       pg_replay [OPTION..] FILE LISTEN_PORT";

/// Serves FILE, a recording of pg_record: answers each client as the server did, and compares what the client sends with
/// what was recorded.
///
/// A client follows the recorded connection that began with the same Startup. Where it sends something else outside of a
/// transaction, it gets the first exchange of any connection that is the same and that no client has taken. Names of
/// statements, portals, cursors and savepoints may differ, and settings may come in any order. Clients need no password,
/// unless --scram names one. The program ends when all connections are replayed. At a difference it prints both messages
/// and the rule that would allow the difference, and ends with status 11.
///
/// With COMMAND the program listens on a free port unless one is named, runs the command with PGHOST and PGPORT set to its own
/// address, and ends when the command ends: with status 11 or 12 if a client differed or was refused, else with the status
/// of the command, which is 128 plus the number of the signal that ended it, 127 if there is no such command, 126 if it can't
/// be run. Signals are passed on to the command. The options --any-order, --again, --go-on and --strict are then in force,
/// each unless it is given with `=false`; --strict isn't with --record-missing or --record-all.
///
/// Messages of more than a mebibyte must be exactly as recorded.
#[derive(Parser, Debug)]
#[command(name = "pg_replay", version = concat!(env!("CARGO_PKG_VERSION"), " plain build"))]
#[command(override_usage = FORM, disable_help_flag = true)]
pub struct ReplayOptions {
    /// The recording
    pub file: PathBuf,
    /// The port of 127.0.0.1 to serve on, 0 for a free one; with --folder, the port in the name of the socket
    pub listen_port: Option<u16>,
    #[command(flatten)]
    pub listening: ListenOptions,
    /// Ask each client, by SCRAM-SHA-256, for the password in the first line of FILE
    #[arg(long, value_name = "FILE")]
    pub scram: Option<PathBuf>,
    /// A TOML file that says what may differ, in the tables `[[replace]]` (pattern, with), `[[parameter]]` (statement,
    /// positions), `[[ignore]]` (statement, command) and `[settings]` (ignore)
    #[arg(long, value_name = "FILE")]
    rules: Option<PathBuf>,
    /// This setting of the Startup may differ or be missing
    #[arg(long, value_name = "NAME")]
    any_setting: Vec<String>,
    /// The value of parameter N of each Bind may differ; the first is 1
    #[arg(long, value_name = "N", value_parser = clap::value_parser!(u16).range(1..))]
    any_parameter: Vec<u16>,
    /// Literals of this kind may differ in SQL
    #[arg(long, value_name = "KIND", value_enum)]
    any_literal: Vec<LiteralKind>,
    /// With --again, serve a connection again as soon as its client has left; another client waits some seconds for that
    #[arg(long, value_name = "BOOL", num_args = 0..=1, require_equals = true, default_missing_value = "true")]
    #[arg(hide_possible_values = true, overrides_with = "any_order")]
    any_order: Option<bool>,
    /// Answer as long after a message as the server did, instead of at once
    #[arg(long)]
    pub speed: bool,
    /// Report a difference when a client sends nothing for so many seconds although the recorded one sent more
    #[arg(long, value_name = "SECONDS", value_parser = clap::value_parser!(u32).range(..=86400))]
    patience: Option<u32>,
    /// Keep serving after a difference. In a transaction that was rolled back in the recording the client that differed goes
    /// on too: its messages are refused, as by a server after a failed statement, until it rolls back
    #[arg(long, value_name = "BOOL", num_args = 0..=1, require_equals = true, default_missing_value = "true")]
    #[arg(hide_possible_values = true, overrides_with = "go_on")]
    go_on: Option<bool>,
    /// Refuse a request that fits two recorded ones with different answers, when nothing tells which one the client means,
    /// and end with status 12; without this option a line names both. After a signal, too, the program ends with status 11
    /// or 12 if a client differed or was refused. `--strict=false` takes the option back
    #[arg(long, value_name = "BOOL", num_args = 0..=1, require_equals = true, default_missing_value = "true")]
    #[arg(hide_possible_values = true, overrides_with = "strict")]
    strict: Option<bool>,
    /// Serve the recording again when all of it is replayed
    #[arg(long, value_name = "BOOL", num_args = 0..=1, require_equals = true, default_missing_value = "true")]
    #[arg(hide_possible_values = true, overrides_with = "again")]
    again: Option<bool>,
    /// Pass what isn't recorded on to the server at HOST and PORT, and record it. When a session departs from the recorded
    /// one, the server first gets what the client sent before, and the new session replaces the recorded one. FILE, which may
    /// be missing, has the new sessions when the program ends. Without a server, a difference is reported as usual
    #[arg(long, conflicts_with_all = ["record_all", "scram"])]
    record_missing: bool,
    /// The same for all that clients send, as if nothing were recorded
    #[arg(long, conflicts_with = "scram")]
    record_all: bool,
    #[command(flatten)]
    pub server: ServerOptions,
    /// The command to run, with its arguments
    #[arg(last = true, value_name = "COMMAND")]
    pub command: Vec<OsString>,
    /// Print this help
    #[arg(long, action = clap::ArgAction::Help)]
    help: Option<bool>,
}

/// What is recorded in a replay.
#[derive(Clone, Copy, Debug, PartialEq, Eq)]
pub enum RecordMode {
    Nothing,
    Missing,
    All,
}

/// What is wrong, and the form of the arguments.
fn with_usage(why: &str) -> String {
    let what = why.split("\n\n").next().unwrap_or_default();
    format!("pg_replay: {}\n{USAGE}\n", what.trim_start_matches("error: "))
}

impl ReplayOptions {
    /// Takes the arguments. What is to be printed of them otherwise comes with a status.
    pub fn take() -> Result<ReplayOptions, (ExitStatus, String)> {
        let options = ReplayOptions::try_parse().map_err(|why| match why.use_stderr() {
            true => (ExitStatus::Usage, with_usage(&why.to_string())),
            false => (ExitStatus::Ok, why.to_string()),
        })?;
        match options.lack() {
            None => Ok(options),
            Some(why) => Err((ExitStatus::Usage, with_usage(why))),
        }
    }

    /// What the arguments lack for a replay.
    fn lack(&self) -> Option<&'static str> {
        if self.port().is_none() && self.listening.listen.is_empty() {
            return Some("where to listen is missing: LISTEN_PORT, --listen ADDRESS, or a command after `--`");
        }
        let has_use = self.recorded() != RecordMode::Nothing || !self.server.is_given();
        (!has_use).then_some("a server has a use with --record-missing or --record-all alone")
    }

    /// What is recorded.
    pub fn recorded(&self) -> RecordMode {
        match (self.record_missing, self.record_all) {
            (false, false) => RecordMode::Nothing,
            (true, _) => RecordMode::Missing,
            _ => RecordMode::All,
        }
    }

    /// Whether a command is run.
    pub fn has_command(&self) -> bool {
        !self.command.is_empty()
    }

    /// The port to listen on: a free one for a command where no address is named.
    pub fn port(&self) -> Option<u16> {
        let is_free = self.has_command() && self.listening.listen.is_empty();
        self.listen_port.or_else(|| is_free.then_some(0))
    }

    pub fn any_order(&self) -> bool {
        self.any_order.unwrap_or(self.has_command())
    }

    pub fn again(&self) -> bool {
        self.again.unwrap_or(self.has_command())
    }

    pub fn goes_on(&self) -> bool {
        self.go_on.unwrap_or(self.has_command())
    }

    /// What isn't recorded yet is to be recorded before an order of clients is asked for.
    pub fn is_strict(&self) -> bool {
        self.strict.unwrap_or(self.has_command() && self.recorded() == RecordMode::Nothing)
    }

    pub fn patience(&self) -> Option<Duration> {
        self.patience.filter(|it| *it > 0).map(|it| Duration::from_secs(it.into()))
    }

    /// Refuses the path of a socket that is longer than one may be.
    pub fn check_paths(&self) -> Result<(), Failure> {
        let named = self
            .listening
            .folder
            .as_ref()
            .zip(self.listen_port)
            .map(|(folder, port)| Address::in_folder(folder, port));
        let mut all = named.iter().chain(&self.listening.listen);
        let long =
            all.find(|it| matches!(it, Address::Unix(path) if path.as_os_str().len() > PATH_MOST));
        long.map_or(Ok(()), |it| {
            Err(Failure::new(ExitStatus::Unreachable, format!("{it} is too long")))
        })
    }

    /// What may differ.
    pub fn rules(&self) -> Result<ReplayRules, Failure> {
        let mut rules = match &self.rules {
            None => ReplayRules::default(),
            Some(path) => ReplayRules::read(path).map_err(|why| {
                Failure::new(ExitStatus::Usage, format!("{}: {why:#}", path.display()))
            })?,
        };
        rules.allow(&self.any_setting, &self.any_parameter, &self.any_literal);
        Ok(rules)
    }
}

#[cfg(test)]
mod tests {
    use super::*;

    fn parsed(words: &[&str]) -> ReplayOptions {
        ReplayOptions::try_parse_from(["pg_replay", "file"].iter().chain(words)).unwrap()
    }

    #[test]
    fn a_command_has_what_a_test_suite_needs_unless_it_is_taken_back() {
        for (words, any_order, again, goes_on, is_strict) in [
            (&["0"][..], false, false, false, false),
            (&["--any-order", "--again", "--go-on", "--strict", "0"], true, true, true, true),
            (&["--", "psql"], true, true, true, true),
            (&["--again=false", "--strict=false", "--", "psql"], true, false, true, false),
            (&["--any-order=false", "--go-on=false", "--", "psql"], false, true, false, true),
            (&["--record-missing", "--", "psql"], true, true, true, false),
            (&["--record-missing", "--strict", "--", "psql"], true, true, true, true),
            (&["--strict", "--strict=false", "0"], false, false, false, false),
        ] {
            let it = parsed(words);
            let found = (it.any_order(), it.again(), it.goes_on(), it.is_strict());
            assert_eq!(found, (any_order, again, goes_on, is_strict), "{words:?}");
        }
    }

    #[test]
    fn a_port_is_named_or_a_free_one_for_a_command() {
        for (words, port, lacks) in [
            (&[][..], None, true),
            (&["5433"], Some(5433), false),
            (&["--", "psql", "-p", "1"], Some(0), false),
            (&["5433", "--", "psql"], Some(5433), false),
            (&["--listen", "5433", "--", "psql"], None, false),
        ] {
            let it = parsed(words);
            assert_eq!((it.port(), it.lack().is_some()), (port, lacks), "{words:?}");
        }
    }
}
