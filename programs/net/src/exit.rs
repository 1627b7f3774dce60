//! How a program ends, and the signals that it takes.

use std::future::pending;
use std::time::Duration;
use std::{fs, io, process, thread};
use tokio::runtime::Builder;
use tokio::signal::unix::{signal, Signal, SignalKind};
use tokio::time::timeout;

/// The number of SIGXFSZ, which comes where a file is longer than it may be.
const FILE_SIZE: i32 = 25;
/// What comes so soon after a Ctrl-C is the same one: a program that began this one may pass it on.
const SAME: Duration = Duration::from_millis(250);

/// The exit statuses. A second Ctrl-C ends a program at once, with 130 too.
#[derive(Clone, Copy, Debug, PartialEq, Eq)]
#[repr(u8)]
pub enum ExitStatus {
    Ok = 0,
    /// The arguments fit no form.
    Usage = 1,
    /// No such address, or nothing accepts connections there.
    Unreachable = 2,
    /// A connection broke.
    Broken = 5,
    /// What came is not what the protocol allows.
    Protocol = 6,
    /// A file can't be read, or output can't be written.
    Local = 7,
    /// A recording can't be written any more.
    Unrecorded = 9,
    /// A file is no recording, or has a fault.
    Damaged = 10,
    /// A client does otherwise than the recorded one.
    Different = 11,
    /// Either of two recorded messages may be meant, which were answered otherwise.
    Ambiguous = 12,
    /// The command can't be run.
    NotRunnable = 126,
    /// There is no such command.
    NoCommand = 127,
    /// Ctrl-C.
    Interrupted = 130,
    /// SIGTERM or SIGHUP.
    Terminated = 143,
}

/// Why a program ends, with its status.
#[derive(Debug, thiserror::Error)]
#[error("{words}")]
pub struct Failure {
    pub status: ExitStatus,
    words: String,
}

impl Failure {
    pub fn new(status: ExitStatus, words: impl Into<String>) -> Failure {
        Failure { status, words: words.into() }
    }
}

/// Ctrl-C, SIGTERM and SIGHUP, by which a program is told to end.
pub struct ShutdownSignals {
    interrupt: Signal,
    terminate: Signal,
    /// None where the program is to go on when its terminal is gone.
    hangup: Option<Signal>,
}

impl ShutdownSignals {
    /// Takes them from now on. A runtime of tokio must be there.
    pub fn take() -> io::Result<ShutdownSignals> {
        let hangup = SignalKind::hangup();
        Ok(ShutdownSignals {
            interrupt: signal(SignalKind::interrupt())?,
            terminate: signal(SignalKind::terminate())?,
            hangup: (!is_ignored(hangup)).then(|| signal(hangup)).transpose()?,
        })
    }

    /// Waits for one that came since, and gives the status that it ends the program in. Another Ctrl-C ends the process then.
    pub async fn wait(mut self) -> ExitStatus {
        let hung_up = async {
            match &mut self.hangup {
                Some(hangup) => hangup.recv().await,
                None => pending().await,
            }
        };
        let status = tokio::select! {
            _ = self.interrupt.recv() => ExitStatus::Interrupted,
            _ = self.terminate.recv() => ExitStatus::Terminated,
            _ = hung_up => ExitStatus::Terminated,
        };
        // Where there is no thread for that, the program ends by itself alone.
        let _ = thread::Builder::new().name("interrupt".to_owned()).spawn(|| {
            Builder::new_current_thread().enable_all().build()?.block_on(end_by_interrupt())
        });
        status
    }
}

/// Whether the process was begun with a signal ignored, as nohup does with SIGHUP.
pub(crate) fn is_ignored(signal: SignalKind) -> bool {
    let status = fs::read_to_string("/proc/self/status").unwrap_or_default();
    let ignored = status.lines().find_map(|line| line.strip_prefix("SigIgn:"));
    let ignored = ignored.and_then(|it| u64::from_str_radix(it.trim(), 16).ok());
    ignored.unwrap_or_default() >> (signal.as_raw_value() - 1) & 1 == 1
}

/// Ends the process at the next Ctrl-C, whatever its other threads do. A SIGTERM doesn't: who has begun the program may send
/// one after a Ctrl-C that has reached both.
async fn end_by_interrupt() -> io::Result<()> {
    let mut interrupt = signal(SignalKind::interrupt())?;
    let _ = timeout(SAME, async { while interrupt.recv().await.is_some() {} }).await;
    interrupt.recv().await;
    process::exit(ExitStatus::Interrupted as i32)
}

/// Has a file that is too long be a failed write, and no reason to be killed.
pub fn ignore_file_size() -> io::Result<Signal> {
    signal(SignalKind::from_raw(FILE_SIZE))
}

#[cfg(test)]
mod tests {
    use super::*;
    use std::env;
    use std::io::{BufRead, BufReader, Lines};
    use std::process::{Child, ChildStdout, Command, Stdio};

    /// Has `a_program` be one.
    const IS_PROGRAM: &str = "NET_IS_PROGRAM";
    /// How long the program takes to end by itself, and how often it gets a signal meanwhile.
    const ENDING: Duration = Duration::from_secs(3);
    const PAUSE: Duration = Duration::from_millis(100);

    /// A program that says when it waits for a signal and when one came, and whose end takes long: a child of the other test.
    #[test]
    fn a_program() {
        if env::var_os(IS_PROGRAM).is_none() {
            return;
        }
        let runtime = Builder::new_current_thread().enable_all().build().unwrap();
        runtime.block_on(async {
            let signals = ShutdownSignals::take().unwrap();
            println!("waiting");
            // A signal that comes before it is waited for counts too.
            thread::sleep(PAUSE);
            println!("ended {}", signals.wait().await as u8);
            thread::sleep(ENDING);
        });
    }

    /// Begins the program, in a shell after a command of that, and gives what it prints. SIGHUP is taken, also where it is
    /// ignored by whoever runs the tests.
    fn begin(before: &str) -> (Child, Lines<BufReader<ChildStdout>>) {
        let mut shell = Command::new("env");
        shell
            .args(["--default-signal=HUP", "sh", "-c", &format!("{before}; exec \"$0\" \"$@\"")])
            .arg(env::current_exe().unwrap());
        shell.args(["--exact", "exit::tests::a_program", "--nocapture"]).env(IS_PROGRAM, "");
        let mut child = shell.stdout(Stdio::piped()).spawn().unwrap();
        let lines = BufReader::new(child.stdout.take().unwrap()).lines();
        (child, lines)
    }

    /// Reads up to a line that has a word.
    fn read_until(lines: &mut Lines<BufReader<ChildStdout>>, word: &str) -> String {
        lines.map(Result::unwrap).find(|line| line.contains(word)).unwrap()
    }

    fn kill(child: &Child, signal: &str) {
        let command = format!("kill -{signal} {}", child.id());
        assert!(Command::new("sh").args(["-c", &command]).status().unwrap().success());
    }

    /// The status of the program after a signal, and another one again and again.
    fn status_after(first: &str, again: &str) -> Option<i32> {
        let (mut child, mut lines) = begin(":");
        read_until(&mut lines, "waiting");
        kill(&child, first);
        read_until(&mut lines, "ended 1");
        while child.try_wait().unwrap().is_none() {
            kill(&child, again);
            thread::sleep(PAUSE);
        }
        child.wait().unwrap().code()
    }

    #[test]
    fn another_interrupt_ends_a_program_that_takes_long_to_end() {
        let table =
            [("INT", "INT", 130), ("TERM", "INT", 130), ("HUP", "INT", 130), ("INT", "TERM", 0)];
        for (first, again, status) in table {
            assert_eq!(status_after(first, again), Some(status), "{first}, {again}");
        }
    }

    /// What a program says of its end by SIGHUP and then Ctrl-C, after a command of a shell.
    fn ended_after(before: &str) -> String {
        let (mut child, mut lines) = begin(before);
        read_until(&mut lines, "waiting");
        kill(&child, "HUP");
        thread::sleep(2 * PAUSE);
        kill(&child, "INT");
        let ended = read_until(&mut lines, "ended");
        child.wait().unwrap();
        ended
    }

    #[test]
    fn a_hangup_ends_a_program_unless_it_was_begun_to_stay() {
        assert_eq!(ended_after(":"), "ended 143");
        assert_eq!(ended_after("trap '' HUP"), "ended 130");
    }
}
