//! pg_record and pg_replay as processes: started, listened to and ended.

use std::env;
use std::ffi::OsString;
use std::fs;
use std::io::{BufRead, BufReader};
use std::process::{Child, ChildStderr, Command, ExitStatus, Stdio};
use std::sync::mpsc::{self, Receiver, RecvTimeoutError};
use std::thread;
use std::time::{Duration, Instant};

use rustix::process::{kill_process, Pid, Signal};

use crate::Error;

/// How long a program may take to listen, or to end.
const PATIENCE: Duration = Duration::from_secs(60);

/// How the line begins that names the port.
const LISTENING: &str = "listening on 127.0.0.1 port ";

/// A running program, which listens on a free port of 127.0.0.1. The program ends with this value.
#[derive(Debug)]
pub struct Program {
    name: &'static str,
    child: Child,
    lines: Receiver<String>,
    said: Vec<String>,
    port: u16,
}

impl Program {
    /// Starts a program, and waits until it listens.
    pub fn start(name: &'static str, arguments: &[OsString]) -> Result<Program, Error> {
        let found = env::var_os(name.to_uppercase()).unwrap_or_else(|| name.into());
        let mut command = Command::new(&found);
        command
            .args(arguments)
            .arg("0")
            .stdin(Stdio::null())
            .stdout(Stdio::null())
            .stderr(Stdio::piped());
        let mut child = command.spawn().map_err(|why| Error::NoProgram {
            program: found.to_string_lossy().into_owned(),
            why,
        })?;
        let lines = lines_of(child.stderr.take());
        let mut program = Program { name, child, lines, said: Vec::new(), port: 0 };
        program.await_port()?;
        Ok(program)
    }

    /// The port that the program listens on.
    pub fn port(&self) -> u16 {
        self.port
    }

    /// The lines that the program has written so far, without the one that names the port.
    pub fn said(&mut self) -> String {
        self.said.extend(self.lines.try_iter());
        self.said.join("\n")
    }

    /// Those that say more than how many sessions were replayed, and that aren't notes.
    pub fn differences(&mut self) -> String {
        self.said();
        let is_more = |line: &&String| {
            !line.ends_with(" sessions are replayed") && !line.starts_with("pg_replay: note: ")
        };
        let lines = self.said.iter().filter(is_more);
        lines.map(String::as_str).collect::<Vec<_>>().join("\n")
    }

    /// Whether the program ends by itself within some time.
    pub fn has_ended(&mut self, patience: Duration) -> Result<bool, Error> {
        let end = Instant::now() + patience;
        while self.child.try_wait()?.is_none() {
            if Instant::now() >= end {
                return Ok(false);
            }
            thread::sleep(Duration::from_millis(5));
        }
        Ok(true)
    }

    /// Waits until no file of the program has grown for a moment, since clients that are gone may have said more.
    pub fn await_quiet(&self) {
        let (end, mut last) = (Instant::now() + PATIENCE, None);
        while Instant::now() < end && last != Some(self.written()) {
            last = Some(self.written());
            thread::sleep(Duration::from_millis(200));
        }
    }

    /// The size of all files that the program holds open, of which some have no name.
    fn written(&self) -> u64 {
        let files = fs::read_dir(format!("/proc/{}/fd", self.child.id()));
        let files = files.into_iter().flatten().flatten();
        files.filter_map(|file| fs::metadata(file.path()).ok()).map(|it| it.len()).sum()
    }

    /// Ends the program at once: pg_replay leaves its recording as it was.
    pub fn kill(&mut self) -> Result<(), Error> {
        self.child.kill()?;
        self.end().map(drop)
    }

    /// Ends the program where it runs, and returns its status, with all lines read that it wrote.
    pub fn end(&mut self) -> Result<ExitStatus, Error> {
        if self.child.try_wait()?.is_none() {
            // An error says that the process is gone.
            let _ = kill_process(self.pid(), Signal::Term);
            if !self.has_ended(PATIENCE)? {
                self.child.kill()?;
            }
        }
        let status = self.child.wait()?;
        self.said.extend(self.lines.iter());
        Ok(status)
    }

    /// The error of a program that failed, with what it said.
    pub fn failed(&mut self, what: impl Into<String>) -> Error {
        Error::Failed { program: self.name, what: what.into(), said: self.said() }
    }

    fn pid(&self) -> Pid {
        Pid::from_child(&self.child)
    }

    fn await_port(&mut self) -> Result<(), Error> {
        let end = Instant::now() + PATIENCE;
        loop {
            match self.lines.recv_timeout(end.saturating_duration_since(Instant::now())) {
                Ok(line) => match line.strip_prefix(LISTENING).and_then(|port| port.parse().ok()) {
                    Some(port) => {
                        self.port = port;
                        return Ok(());
                    }
                    None => self.said.push(line),
                },
                Err(RecvTimeoutError::Timeout) => return Err(self.failed("does not listen")),
                Err(RecvTimeoutError::Disconnected) => {
                    let status = self.end()?;
                    return Err(self.failed(format!("ended with {status}")));
                }
            }
        }
    }
}

impl Drop for Program {
    fn drop(&mut self) {
        // What can't be ended can't be helped here.
        let _ = self.end();
    }
}

/// The lines that a process writes, read by a thread so that its pipe never fills.
fn lines_of(stderr: Option<ChildStderr>) -> Receiver<String> {
    let (sender, lines) = mpsc::channel();
    if let Some(stderr) = stderr {
        thread::spawn(move || {
            for line in BufReader::new(stderr).split(b'\n').map_while(Result::ok) {
                if sender.send(String::from_utf8_lossy(&line).into_owned()).is_err() {
                    break;
                }
            }
        });
    }
    lines
}
