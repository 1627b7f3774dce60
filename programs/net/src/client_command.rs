//! A command that a program runs on what it serves, such as a test suite.

use crate::exit::is_ignored;
use crate::{ClientEnvironment, ExitStatus, Failure};
use rustix::process::{kill_process, Pid, Signal as SignalNumber};
use std::ffi::OsString;
use std::os::unix::process::ExitStatusExt;
use std::process::{Child, Command};
use std::{fs, io, process};
use tokio::signal::unix::{signal, Signal, SignalKind};
use tokio::sync::mpsc;

/// The signals that are passed on.
const PASSED: [SignalNumber; 6] = [
    SignalNumber::Hup,
    SignalNumber::Int,
    SignalNumber::Quit,
    SignalNumber::Term,
    SignalNumber::Usr1,
    SignalNumber::Usr2,
];
/// What is added to the number of a signal that ended a command, as shells do.
const SIGNALLED: i32 = 128;

/// A command that runs, with the standard streams of this process. Signals that come to this process go on to the command.
pub struct ClientCommand {
    child: Child,
    /// Comes when a child has ended.
    ended: Signal,
    signals: mpsc::UnboundedReceiver<SignalNumber>,
}

impl ClientCommand {
    /// Starts a command of its name and its arguments. A runtime of tokio must be there.
    pub fn start(
        words: &[OsString],
        environment: &ClientEnvironment,
    ) -> Result<ClientCommand, Failure> {
        let local = |why: io::Error| Failure::new(ExitStatus::Local, format!("no signals: {why}"));
        let ended = signal(SignalKind::child()).map_err(local)?;
        let signals = take_signals().map_err(local)?;
        let (name, arguments) = words
            .split_first()
            .ok_or_else(|| Failure::new(ExitStatus::Usage, "the command is missing"))?;
        let mut command = Command::new(name);
        command.args(arguments);
        environment.set(&mut command);
        let child = command.spawn().map_err(|why| {
            let status = match why.kind() {
                io::ErrorKind::NotFound => ExitStatus::NoCommand,
                _ => ExitStatus::NotRunnable,
            };
            Failure::new(status, format!("{} can't be run: {why}", name.to_string_lossy()))
        })?;
        Ok(ClientCommand { child, ended, signals })
    }

    /// Waits until the command has ended, and gives its status as a shell does: 128 and the number of the signal that ended it.
    pub async fn wait(mut self) -> u8 {
        loop {
            match self.child.try_wait() {
                Ok(None) => {}
                Ok(Some(status)) => return code(status),
                Err(_) => return ExitStatus::Local as u8,
            }
            tokio::select! {
                _ = self.ended.recv() => {}
                Some(signal) = self.signals.recv() => self.pass(signal),
            }
        }
    }

    fn pass(&self, signal: SignalNumber) {
        let is_key = matches!(signal, SignalNumber::Int | SignalNumber::Quit);
        if !(is_key && is_in_foreground()) {
            // The command may have ended, and isn't waited for yet.
            let _ = kill_process(Pid::from_child(&self.child), signal);
        }
    }
}

/// Takes the signals to be passed on from now on, without those that are ignored: the command ignores these too.
fn take_signals() -> io::Result<mpsc::UnboundedReceiver<SignalNumber>> {
    let (sender, signals) = mpsc::unbounded_channel();
    for number in PASSED {
        let kind = SignalKind::from_raw(number as i32);
        if is_ignored(kind) {
            continue;
        }
        let (mut taken, sender) = (signal(kind)?, sender.clone());
        tokio::spawn(async move {
            while taken.recv().await.is_some() && sender.send(number).is_ok() {}
        });
    }
    Ok(signals)
}

/// Whether the terminal sends the signals of its keys to this process, and so to the command.
fn is_in_foreground() -> bool {
    let status = fs::read_to_string("/proc/self/stat").unwrap_or_default();
    // The name of the program, in parentheses, may have spaces and parentheses.
    let fields = status.rsplit(')').next().unwrap_or_default().split_whitespace();
    let fields: Vec<&str> = fields.collect();
    matches!(fields[..], [_, _, group, _, _, foreground, ..] if group == foreground)
}

fn code(status: process::ExitStatus) -> u8 {
    let signal = status.signal().unwrap_or_default();
    status.code().unwrap_or(SIGNALLED + signal) as u8
}
