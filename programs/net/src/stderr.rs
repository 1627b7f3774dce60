//! What a program says on standard error: by a thread of its own, so that no session waits where nobody reads it.

use std::fmt::Display;
use std::io::{self, Write};
use std::sync::atomic::{AtomicUsize, Ordering};
use std::sync::mpsc::{channel, sync_channel, Sender, SyncSender};
use std::sync::Arc;
use std::thread;
use std::time::Duration;

/// How many lines may wait to be written, and of how many bytes; those that come while so many do are dropped.
const WAITING: usize = 1000;
const WAITING_BYTES: usize = 1 << 20;
/// How long the last lines may take where nobody reads them.
const PATIENCE: Duration = Duration::from_secs(1);

/// What the thread is told.
enum StderrLine {
    Text(String),
    /// All before it is written: this is told then.
    Flush(Sender<()>),
}

/// Writes lines to standard error in their order, each after the program's name.
#[derive(Clone)]
pub struct StderrWriter {
    program: &'static str,
    lines: SyncSender<StderrLine>,
    /// How many bytes wait to be written.
    waiting: Arc<AtomicUsize>,
}

impl StderrWriter {
    pub fn new(program: &'static str) -> StderrWriter {
        let (lines, received) = sync_channel(WAITING);
        let waiting = Arc::new(AtomicUsize::new(0));
        let left = waiting.clone();
        thread::spawn(move || {
            for line in received {
                match line {
                    StderrLine::Text(text) => {
                        // Nobody can be told where standard error can't be written.
                        let _ = io::stderr().write_all(text.as_bytes());
                        left.fetch_sub(text.len(), Ordering::Relaxed);
                    }
                    StderrLine::Flush(done) => drop(done.send(())),
                }
            }
        });
        StderrWriter { program, lines, waiting }
    }

    /// A text with the program's name before it.
    pub fn named(&self, text: impl Display) -> String {
        format!("{}: {text}", self.program)
    }

    /// Says a line with the program's name before it.
    pub fn say(&self, text: impl Display) {
        self.say_plain(self.named(text));
    }

    /// Says a line as it is.
    pub fn say_plain(&self, text: impl Display) {
        let text = format!("{text}\n");
        let count = text.len();
        if self.take(count) && self.lines.try_send(StderrLine::Text(text)).is_err() {
            self.waiting.fetch_sub(count, Ordering::Relaxed);
        }
    }

    /// Counts so many bytes as waiting, where they may wait: alone, however many they are, and else up to a limit.
    fn take(&self, count: usize) -> bool {
        let add = |waiting: usize| match waiting + count {
            sum if waiting == 0 || sum <= WAITING_BYTES => Some(sum),
            _ => None,
        };
        self.waiting.fetch_update(Ordering::Relaxed, Ordering::Relaxed, add).is_ok()
    }

    /// Waits until all is written, or for a while where nobody reads it.
    pub fn end(&self) {
        let (done, is_done) = channel();
        if self.lines.try_send(StderrLine::Flush(done)).is_ok() {
            let _ = is_done.recv_timeout(PATIENCE);
        }
    }
}

#[cfg(test)]
mod tests {
    use super::*;

    #[test]
    fn lines_that_nobody_reads_take_little_room() {
        let (lines, received) = sync_channel(WAITING);
        let writer = StderrWriter { program: "it", lines, waiting: Arc::default() };
        // A line that is longer than all may be is taken where none waits.
        for _ in 0..3 {
            writer.say_plain("x".repeat(2 * WAITING_BYTES));
        }
        assert_eq!(received.try_iter().count(), 1);
        writer.waiting.store(0, Ordering::Relaxed);
        for _ in 0..WAITING {
            writer.say_plain("x".repeat(WAITING_BYTES / 10));
        }
        assert_eq!(received.try_iter().count(), 9);
        writer.waiting.store(0, Ordering::Relaxed);
        for _ in 0..2 * WAITING {
            writer.say_plain("x");
        }
        assert_eq!(
            (received.try_iter().count(), writer.waiting.load(Ordering::Relaxed)),
            (WAITING, 2 * WAITING)
        );
    }
}
