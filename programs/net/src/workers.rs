//! Threads that serve clients, and how many sessions they and the process can have.

use rlimit::Resource;
use std::future::{poll_fn, Future};
use std::io;
use std::mem;
use std::sync::Arc;
use std::task::Poll;
use std::thread::{self, JoinHandle};
use std::time::{Duration, Instant};
use tokio::runtime::{Builder, Handle};
use tokio::sync::oneshot;

/// How long threads may take to end, and when it is looked again.
const PATIENCE: Duration = Duration::from_secs(1);
const PAUSE: Duration = Duration::from_millis(1);

/// The most sessions at a time.
const MOST_SESSIONS: u64 = 1000;
/// The most descriptors that are of neither a session nor a thread.
const OTHERS: u64 = 32;

/// The descriptors of a thread with a runtime: what it waits for, what wakes it, and what tells it of signals.
const OF_THREAD: u64 = 3;

/// Threads with a runtime each. A session stays on the thread that it began on, so that no thread wakes another one or takes
/// its tasks while messages pass.
pub struct Workers {
    all: Vec<Worker>,
}

struct Worker {
    runtime: Handle,
    /// Each session has a clone.
    sessions: Arc<()>,
    /// The thread ends once this is dropped.
    end: oneshot::Sender<()>,
    thread: JoinHandle<()>,
}

impl Worker {
    fn new() -> io::Result<Worker> {
        let runtime = Builder::new_current_thread().enable_all().build()?;
        let handle = runtime.handle().clone();
        let (end, is_ended) = oneshot::channel();
        let serve = move || drop(runtime.block_on(is_ended));
        let thread = thread::Builder::new().name("sessions".to_owned()).spawn(serve)?;
        Ok(Worker { runtime: handle, sessions: Arc::new(()), end, thread })
    }

    /// How many sessions it has.
    fn load(&self) -> usize {
        Arc::strong_count(&self.sessions) - 1
    }
}

impl Workers {
    /// Begins so many threads.
    pub fn new(count: usize) -> io::Result<Workers> {
        let all = (0..count).map(|_| Worker::new()).collect::<io::Result<_>>()?;
        Ok(Workers { all })
    }

    /// How many threads there are.
    pub fn count(&self) -> usize {
        self.all.len()
    }

    /// Runs a session on the thread that has the fewest.
    pub fn spawn(&self, session: impl Future<Output = ()> + Send + 'static) {
        if let Some(worker) = self.all.iter().min_by_key(|it| it.load()) {
            let counted = worker.sessions.clone();
            worker.runtime.spawn(async move {
                session.await;
                drop(counted);
            });
        }
    }

    /// Ends all sessions, and waits a while until the threads have. One that waits for a pipe which nobody reads ends with the
    /// process.
    pub fn end(self) {
        let (ends, threads): (Vec<_>, Vec<_>) =
            self.all.into_iter().map(|it| (it.end, it.thread)).unzip();
        drop(ends);
        let late = Instant::now() + PATIENCE;
        while threads.iter().any(|it| !it.is_finished()) && Instant::now() < late {
            thread::sleep(PAUSE);
        }
    }
}

/// Lets the sessions of this thread run for which something is there already. Unlike tokio's `yield_now` it asks the system for
/// nothing.
pub async fn let_others() {
    let mut has_waited = false;
    poll_fn(|cx| match mem::replace(&mut has_waited, true) {
        true => Poll::Ready(()),
        false => {
            cx.waker().wake_by_ref();
            Poll::Pending
        }
    })
    .await;
}

/// How many sessions of so many descriptors each the process has descriptors for beside those of so many threads, after
/// raising their limit where it may.
pub fn most_sessions(descriptors: u64, threads: usize) -> usize {
    let others = OTHERS + OF_THREAD * threads as u64;
    let wanted = descriptors * MOST_SESSIONS + others;
    let limit = rlimit::increase_nofile_limit(wanted)
        .or_else(|_| Resource::NOFILE.get().map(|(soft, _)| soft))
        .unwrap_or(wanted);
    let most = limit.saturating_sub(others) / descriptors;
    most.clamp(1, MOST_SESSIONS) as usize
}
