//! The end of the passing on, and what is left to be done then.

use crate::proxy::Proxy;
use crate::replaced_file::ReplacedFile;
use net::{ExitStatus, Failure};
use std::sync::atomic::Ordering;
use std::sync::Arc;
use std::time::Duration;
use tokio::sync::mpsc;
use tokio::task::{spawn_blocking, JoinHandle};
use tokio::time::timeout;

/// How long a listener or the file may take to be closed.
const PATIENCE: Duration = Duration::from_secs(1);

/// What ends the program.
pub struct ShutdownEvents {
    pub failures: mpsc::UnboundedReceiver<Failure>,
    /// Gives the status of a signal, or of the command.
    pub over: JoinHandle<u8>,
    pub has_command: bool,
    /// The status of the first session, where all ends with it.
    pub first: mpsc::UnboundedReceiver<ExitStatus>,
}

/// Waits for an end, and gives its status. All that has passed is in the file, so little is left to be done.
pub async fn end(
    proxy: &Arc<Proxy>,
    accepting: Vec<JoinHandle<()>>,
    mut events: ShutdownEvents,
    replaced: Option<ReplacedFile>,
) -> Result<u8, Failure> {
    let (ended, mut is_told) = tokio::select! {
        biased;
        Some(failure) = events.failures.recv() => (Err(failure), false),
        status = &mut events.over => (Ok(status.unwrap_or(ExitStatus::Local as u8)), true),
        Some(status) = events.first.recv() => (Ok(status as u8), false),
    };
    for each in accepting {
        each.abort();
        // A listener is closed with its task, unless all threads wait for a file.
        let _ = timeout(PATIENCE, each).await;
    }
    if events.has_command && !is_told {
        // It goes on alone, but not longer than this process.
        is_told = (&mut events.over).await.is_ok();
    }
    let is_unreachable = matches!(ended, Ok(status) if status == ExitStatus::Unreachable as u8);
    let closed = proxy.clone();
    let closing = spawn_blocking(move || closed.sink.close(is_unreachable));
    if timeout(PATIENCE, closing).await.is_err() {
        // Who writes to a pipe that nobody reads may keep others from their lines, too.
        return ended;
    }
    let lost = tokio::select! {
        lost = proxy.sink.end(is_told) => lost,
        _ = events.over, if !is_told => proxy.sink.end(true).await,
    };
    say_cancels(proxy);
    match (ended?, lost) {
        (_, Some(lost)) => Ok(lost as u8),
        (status, None) => persist(replaced, proxy).map(|()| status),
    }
}

/// Gives a recording its name that has none until now, if there is a session in it.
fn persist(replaced: Option<ReplacedFile>, proxy: &Proxy) -> Result<(), Failure> {
    let Some(replaced) = replaced else {
        return Ok(());
    };
    let count = proxy.sessions.load(Ordering::Relaxed);
    if count > 0 {
        replaced.persist()?;
    }
    proxy.stderr.say(match count {
        0 => "no session is recorded".to_owned(),
        1 => "1 session is recorded".to_owned(),
        count => format!("{count} sessions are recorded"),
    });
    Ok(())
}

fn say_cancels(proxy: &Proxy) {
    match proxy.cancels.load(Ordering::Relaxed) {
        0 => {}
        1 => proxy.stderr.say("1 request to cancel was passed on"),
        count => proxy.stderr.say(format_args!("{count} requests to cancel were passed on")),
    }
}
