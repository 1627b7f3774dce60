//! What all sessions share, and where clients are accepted.

use crate::record_sink::RecordSink;
use crate::session::{ProxySession, OPENING};
use net::{ClientCommand, ExitStatus, Listener, ServerTls, StderrWriter, Upstream, Workers};
use std::io;
use std::sync::atomic::{AtomicU64, Ordering};
use std::sync::Arc;
use std::time::Duration;
use tokio::sync::{mpsc, Notify, OwnedSemaphorePermit, Semaphore};
use tokio::time::{sleep, sleep_until, timeout, timeout_at, Instant};

/// How long a client's first message may take while others wait for its place.
const CROWDED: Duration = Duration::from_secs(2);
/// How long no client is accepted where that can't be done.
const PAUSE: Duration = Duration::from_millis(50);
/// How long sessions may go on after the command: their last messages may not have passed yet.
const LAST: Duration = Duration::from_secs(2);

pub struct Proxy {
    pub upstream: Upstream,
    pub sink: RecordSink,
    pub tls: Option<ServerTls>,
    pub passes_encryption: bool,
    pub leaves_out: bool,
    pub stderr: StderrWriter,
    /// All ends with the first session, whose status is told here.
    pub single: Option<mpsc::UnboundedSender<ExitStatus>>,
    pub permits: Arc<Semaphore>,
    /// How many permits there are.
    pub most: usize,
    /// Calls sessions when clients wait for a place.
    pub is_crowded: Notify,
    /// How many sessions were passed on.
    pub sessions: AtomicU64,
    pub cancels: AtomicU64,
}

impl Proxy {
    /// Waits until a client that says no first message is given up: sooner while others wait.
    pub async fn run_out(&self, begun: Instant) {
        let hurried = async {
            sleep_until(begun + CROWDED).await;
            loop {
                let called = self.is_crowded.notified();
                if self.permits.available_permits() == 0 {
                    return;
                }
                called.await;
            }
        };
        let _ = timeout_at(begun + OPENING, hurried).await;
    }

    pub fn count_cancel(&self) {
        self.cancels.fetch_add(1, Ordering::Relaxed);
    }

    /// Waits until a command has ended, and for a while until no session goes on. Gives the command's status.
    pub async fn outlast(self: Arc<Proxy>, command: ClientCommand) -> u8 {
        let status = command.wait().await;
        let _ = timeout(LAST, self.permits.acquire_many(self.most as u32)).await;
        status
    }

    /// Notes how the session of a number ended.
    pub fn session_ended(&self, number: u32, status: ExitStatus) {
        if let Some(single) = self.single.as_ref().filter(|_| number == 1) {
            let _ = single.send(status);
        }
    }

    /// A place for a client, of which there are as many as the process has descriptors for.
    async fn permit(&self) -> Option<OwnedSemaphorePermit> {
        if let Ok(permit) = self.permits.clone().try_acquire_owned() {
            return Some(permit);
        }
        self.is_crowded.notify_waiters();
        self.permits.clone().acquire_owned().await.ok()
    }

    /// Serves those who connect to a listener, each by a task of its own.
    pub async fn accept(self: Arc<Proxy>, listener: Listener, workers: Arc<Workers>) {
        loop {
            let (client, peer) = match listener.accept().await {
                Ok(accepted) => accepted,
                Err(why) => {
                    self.wait_after(&why).await;
                    continue;
                }
            };
            let permit = match self.permit().await {
                Some(permit) => permit,
                None => return,
            };
            let proxy = self.clone();
            workers.spawn(async move {
                if let Ok(client) = client.watch() {
                    ProxySession::new(&proxy, peer).serve(client).await;
                }
                drop(permit);
            });
        }
    }

    /// Waits for what may pass: a client that gave up, or a lack of descriptors or of memory.
    async fn wait_after(&self, why: &io::Error) {
        if why.kind() != io::ErrorKind::ConnectionAborted {
            sleep(PAUSE).await;
        }
    }
}
