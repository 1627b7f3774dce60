//! Lines of what passes, on standard output: by a thread of its own, so that a signal ends the program also where nobody
//! reads them.

use net::{ExitStatus, Failure};
use std::io::{self, Write};
use std::mem;
use std::sync::{Arc, Condvar, Mutex, MutexGuard, PoisonError};
use std::thread;
use std::time::Duration;
use tokio::sync::watch;
use tokio::time::timeout;

/// The room that is kept for lines which are to come.
const ROOM: usize = 64 << 10;
/// How long the last lines may take once a signal has come.
const PATIENCE: Duration = Duration::from_millis(500);

/// Standard output, where nothing more can be written.
#[derive(Debug)]
pub struct StdoutClosed;

/// Takes lines, and says when they are written.
pub struct StdoutWriter {
    waiting: Arc<PendingLines>,
    /// How many bytes are written. It has no sender any more where none can be.
    written: watch::Receiver<u64>,
}

/// Lines that aren't written yet, and how many bytes of lines were added in all.
#[derive(Default)]
struct PendingLines {
    lines: Mutex<(Vec<u8>, u64)>,
    is_called: Condvar,
}

impl PendingLines {
    fn lock(&self) -> MutexGuard<'_, (Vec<u8>, u64)> {
        self.lines.lock().unwrap_or_else(PoisonError::into_inner)
    }

    /// Takes lines away once there are some.
    fn take(&self) -> Vec<u8> {
        let mut waiting = self.lock();
        while waiting.0.is_empty() {
            waiting = self.is_called.wait(waiting).unwrap_or_else(PoisonError::into_inner);
        }
        mem::take(&mut waiting.0)
    }
}

impl StdoutWriter {
    /// Begins the thread. `on_failure` is told why standard output can't be written.
    pub fn new(on_failure: impl FnOnce(Failure) + Send + 'static) -> StdoutWriter {
        let waiting = Arc::new(PendingLines::default());
        let (sender, written) = watch::channel(0);
        let taken = waiting.clone();
        thread::spawn(move || {
            let mut count = 0;
            loop {
                let lines = taken.take();
                let mut stdout = io::stdout();
                if let Err(why) = stdout.write_all(&lines).and_then(|()| stdout.flush()) {
                    let words = format!("standard output can't be written: {why}");
                    return on_failure(Failure::new(ExitStatus::Local, words));
                }
                count += lines.len() as u64;
                let _ = sender.send(count);
            }
        });
        StdoutWriter { waiting, written }
    }

    /// Adds lines, and gives the place where they end.
    pub fn add(&self, lines: &mut Vec<u8>) -> u64 {
        let mut waiting = self.waiting.lock();
        waiting.1 += lines.len() as u64;
        waiting.0.append(lines);
        lines.shrink_to(ROOM);
        self.waiting.is_called.notify_one();
        waiting.1
    }

    /// Waits until lines up to a place are written.
    pub async fn wait(&self, end: u64) -> Result<(), StdoutClosed> {
        let mut written = self.written.clone();
        while *written.borrow() < end {
            written.changed().await.map_err(|_| StdoutClosed)?;
        }
        Ok(())
    }

    /// Waits until all lines are written; only for a while where a signal has come.
    pub async fn end(&self, is_told: bool) -> Result<(), &'static str> {
        let end = self.waiting.lock().1;
        let patience = if is_told { PATIENCE } else { Duration::MAX };
        match timeout(patience, self.wait(end)).await {
            Err(_) => Err("standard output isn't read: its last lines are lost"),
            // Why it is closed was said.
            Ok(_) => Ok(()),
        }
    }
}
