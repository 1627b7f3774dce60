//! Recordings that tests run on, each by a program of its own.

use std::env;
use std::ffi::OsString;
use std::fs;
use std::path::{Path, PathBuf};
use std::thread;
use std::time::Duration;

use tempfile::{Builder, TempPath};

use crate::program::Program;
use crate::Error;

/// How long pg_replay may take to end after the last session of the recording.
const LAST_END: Duration = Duration::from_secs(2);

/// How long a recording of no session is, in bytes.
const HEAD: u64 = 24;

/// The status of pg_replay where it was told to end.
const TOLD_TO_END: i32 = 143;

/// How tests run on a recording.
#[derive(Debug, Clone, Default)]
pub struct Options {
    is_whole: bool,
    server: Option<(String, u16)>,
    arguments: Vec<OsString>,
}

impl Options {
    /// Clients may take the sessions in any order and repeat them, and need not take all.
    pub fn new() -> Options {
        Options::default()
    }

    /// Each session has to be taken once.
    pub fn whole(mut self) -> Options {
        self.is_whole = true;
        self
    }

    /// The server for a recording, where the one of PGHOST and PGPORT isn't meant.
    pub fn server(mut self, host: impl Into<String>, port: u16) -> Options {
        self.server = Some((host.into(), port));
        self
    }

    /// More options of pg_replay.
    pub fn arguments<A: Into<OsString>>(
        mut self,
        arguments: impl IntoIterator<Item = A>,
    ) -> Options {
        self.arguments.extend(arguments.into_iter().map(Into::into));
        self
    }

    /// Replays a recording. With the variable `PG_TAPE=record` makes it anew, and with `PG_TAPE=missing` what isn't in it.
    pub fn open(self, path: impl AsRef<Path>) -> Result<Tape, Error> {
        match env::var_os("PG_TAPE") {
            Some(word) if word == "record" => self.record(path),
            Some(word) if word == "missing" => self.renew(path),
            _ => self.replay(path),
        }
    }

    /// Replays a recording. A client is refused where it may mean another session whose answer differs, unless
    /// `--strict=false` is among the [`arguments`](Options::arguments).
    pub fn replay(self, path: impl AsRef<Path>) -> Result<Tape, Error> {
        let path = path.as_ref().to_owned();
        if !path.exists() {
            return Err(Error::NoRecording(path));
        }
        let order = if self.is_whole { &[][..] } else { &["--any-order", "--again"] };
        let mut arguments = words(order);
        arguments.extend(words(&["--go-on", "--strict"]));
        arguments.extend(self.arguments);
        arguments.push(path.clone().into());
        let mode = TapeMode::Replay { is_whole: self.is_whole };
        Tape::start("pg_replay", &arguments, path, mode)
    }

    /// Replays a recording, and records by the server what isn't in it, or all where there is no recording yet. The new
    /// recording takes the place of the old one once the tape is finished.
    pub fn renew(self, path: impl AsRef<Path>) -> Result<Tape, Error> {
        let path = path.as_ref().to_owned();
        folder(&path)?;
        let mut arguments = words(&["--record-missing", "--any-order", "--again", "--go-on"]);
        arguments.extend(self.address());
        arguments.extend(self.arguments);
        arguments.push(path.clone().into());
        Tape::start("pg_replay", &arguments, path, TapeMode::Renew)
    }

    /// Makes a recording anew. It takes the place of an old one once the tape is finished.
    pub fn record(self, path: impl AsRef<Path>) -> Result<Tape, Error> {
        let path = path.as_ref().to_owned();
        // The name is of this run alone: others may record beside it.
        let mut name = path.file_name().unwrap_or_default().to_owned();
        name.push(".");
        let new = Builder::new().prefix(&name).tempfile_in(folder(&path)?)?.into_temp_path();
        let mut arguments: Vec<OsString> = self.address().collect();
        arguments.extend(["-o".into(), new.as_os_str().to_owned()]);
        Tape::start("pg_record", &arguments, path, TapeMode::Record(new))
    }

    /// The words that name the server.
    fn address(&self) -> impl Iterator<Item = OsString> {
        let named = self
            .server
            .clone()
            .map(|(host, port)| ["-h".into(), host.into(), "-p".into(), port.to_string().into()]);
        named.into_iter().flatten()
    }
}

/// A recording that is being made or replayed, and where its program listens.
///
/// A tape that is dropped without [`finish`](Tape::finish) panics where a client differed, unless its test panics already:
/// then it prints the difference.
#[derive(Debug)]
pub struct Tape {
    path: PathBuf,
    program: Program,
    /// None once it is over.
    mode: Option<TapeMode>,
}

#[derive(Debug)]
enum TapeMode {
    /// The new recording, until it takes the place of the old one.
    Record(TempPath),
    Renew,
    Replay {
        is_whole: bool,
    },
}

impl Tape {
    fn start(
        name: &'static str,
        arguments: &[OsString],
        path: PathBuf,
        mode: TapeMode,
    ) -> Result<Tape, Error> {
        let program = Program::start(name, arguments)?;
        Ok(Tape { path, program, mode: Some(mode) })
    }

    /// The host that clients connect to.
    pub fn host(&self) -> &'static str {
        "127.0.0.1"
    }

    /// The port that clients connect to.
    pub fn port(&self) -> u16 {
        self.program.port()
    }

    /// Whether the recording is being made.
    pub fn is_recorded(&self) -> bool {
        matches!(self.mode, Some(TapeMode::Record(_)))
    }

    /// What pg_replay has reported so far: nothing where no client differed, or where the recording is being made.
    pub fn differences(&mut self) -> String {
        if self.is_recorded() {
            String::new()
        } else {
            self.program.differences()
        }
    }

    /// Ends the program. The error of a replay says where a client differed; a recording takes its place.
    pub fn finish(mut self) -> Result<(), Error> {
        self.close()
    }

    fn close(&mut self) -> Result<(), Error> {
        match self.mode.take() {
            None => Ok(()),
            Some(TapeMode::Record(new)) => self.close_recording(new),
            Some(TapeMode::Renew) => self.close_renewal(),
            Some(TapeMode::Replay { is_whole }) => self.close_replay(is_whole),
        }
    }

    fn close_replay(&mut self, is_whole: bool) -> Result<(), Error> {
        let is_over = self.program.has_ended(if is_whole { LAST_END } else { Duration::ZERO })?;
        let status = self.program.end()?;
        let went_well = if is_whole { is_over && status.success() } else { !is_over };
        if went_well && self.program.differences().is_empty() {
            return Ok(());
        }
        Err(Error::Differs { path: self.path.clone(), said: self.program.said() })
    }

    fn close_renewal(&mut self) -> Result<(), Error> {
        self.program.await_quiet();
        if !self.program.differences().is_empty() {
            // Told to end, the program would put into the recording what a run that fails has said.
            self.program.kill()?;
            return Err(Error::Differs { path: self.path.clone(), said: self.program.said() });
        }
        let status = self.program.end()?;
        if status.code() != Some(TOLD_TO_END) {
            return Err(self.program.failed(format!("ended with {status}")));
        }
        Ok(())
    }

    fn close_recording(&mut self, new: TempPath) -> Result<(), Error> {
        self.program.await_quiet();
        // The program has words only for what it couldn't pass on or record.
        if self.program.has_ended(Duration::ZERO)? || !self.program.said().is_empty() {
            return Err(self.program.failed("failed"));
        }
        self.program.end()?;
        if fs::metadata(&new)?.len() <= HEAD {
            return Err(Error::NoClient(self.port()));
        }
        Ok(new.persist(&self.path).map_err(|why| why.error)?)
    }
}

impl Drop for Tape {
    fn drop(&mut self) {
        let is_made = matches!(self.mode, Some(TapeMode::Record(_) | TapeMode::Renew));
        if thread::panicking() && is_made {
            // A test that failed leaves the old recording.
            let _ = self.program.kill();
        } else if let Err(why) = self.close() {
            if thread::panicking() {
                eprintln!("{why}");
            } else {
                panic!("{why}");
            }
        }
    }
}

/// Words of a program.
fn words(all: &[&str]) -> Vec<OsString> {
    all.iter().map(Into::into).collect()
}

/// The folder of a recording, which is made where it isn't there.
fn folder(path: &Path) -> Result<&Path, Error> {
    let folder = path.parent().filter(|it| !it.as_os_str().is_empty());
    let folder = folder.unwrap_or_else(|| Path::new("."));
    fs::create_dir_all(folder)?;
    Ok(folder)
}
