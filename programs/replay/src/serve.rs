//! Serving a recording to the clients that connect.

use crate::pool::Pool;
use crate::recorded::{plain, Recording};
use crate::renewal::Renewal;
use crate::report::{doubt, AllowedDifferences, DifferenceReport, ReportedMessage, RuleAdviser};
use crate::rules::ReplayRules;
use crate::session::{greet, ScramSecret};
use anyhow::Result;
use net::{most_sessions, ExitStatus, Failure, Listener, ServerTls, StderrWriter, Workers};
use std::collections::VecDeque;
use std::sync::atomic::{AtomicBool, Ordering};
use std::sync::{Arc, Mutex, MutexGuard, PoisonError};
use std::time::{Duration, Instant};
use tokio::sync::{mpsc, oneshot, Notify, Semaphore};
use tokio::time::sleep;

/// The descriptors of a session: of a client, and of a server to which it may be passed on.
const DESCRIPTORS: u64 = 2;

/// How long a client may take for its Startup while others wait for a place.
const CROWDED_PATIENCE: Duration = Duration::from_secs(1);
/// When it is looked again where no client can be accepted.
const PAUSE: Duration = Duration::from_millis(50);

/// What all sessions have.
pub struct Shared {
    pub recording: Arc<Recording>,
    pub rules: Arc<ReplayRules>,
    adviser: RuleAdviser,
    pool: Mutex<Pool>,
    /// Something came that a session may wait for of others.
    pub stirred: Notify,
    pub keeps_times: bool,
    pub patience: Option<Duration>,
    pub stderr: StderrWriter,
    pub again: bool,
    pub any_order: bool,
    pub goes_on: bool,
    pub tls: Option<ServerTls>,
    pub login: Option<ScramSecret>,
    /// What is recorded beside.
    pub renewal: Option<Renewal>,
    is_different: AtomicBool,
    /// A client that may mean either of two recorded messages ends by that.
    pub is_strict: bool,
    is_ambiguous: AtomicBool,
    /// All goes on until a command ends, whatever clients do.
    has_command: bool,
    /// Clients whose Startup hasn't come, the oldest first.
    openings: Mutex<VecDeque<PendingClient>>,
    end: mpsc::Sender<Result<(), Failure>>,
}

/// When a client came that hasn't opened its session, and what tells it that it has to go.
type PendingClient = (Instant, oneshot::Sender<()>);

/// How a recording is served.
pub struct ReplayConfig {
    pub keeps_times: bool,
    pub patience: Option<Duration>,
    pub again: bool,
    pub any_order: bool,
    pub goes_on: bool,
    pub is_strict: bool,
    pub has_command: bool,
    pub login: Option<ScramSecret>,
    pub renewal: Option<Renewal>,
    /// What tells that all ends, and how.
    pub end: mpsc::Sender<Result<(), Failure>>,
}

impl Shared {
    pub fn new(
        recording: Recording,
        rules: Arc<ReplayRules>,
        stderr: StderrWriter,
        tls: Option<ServerTls>,
        config: ReplayConfig,
    ) -> Shared {
        let (recording, gives_back) = (Arc::new(recording), config.renewal.is_some());
        let pool = Pool::new(recording.clone(), config.again, config.any_order, gives_back);
        Shared {
            pool: Mutex::new(pool),
            adviser: RuleAdviser::new(recording.clone(), rules.clone()),
            recording,
            rules,
            stirred: Notify::new(),
            keeps_times: config.keeps_times,
            patience: config.patience,
            stderr,
            again: config.again,
            any_order: config.any_order,
            goes_on: config.goes_on,
            tls,
            login: config.login,
            renewal: config.renewal,
            is_different: AtomicBool::new(false),
            is_strict: config.is_strict,
            is_ambiguous: AtomicBool::new(false),
            has_command: config.has_command,
            openings: Mutex::new(VecDeque::new()),
            end: config.end,
        }
    }

    pub fn pool(&self) -> MutexGuard<'_, Pool> {
        self.pool.lock().unwrap_or_else(PoisonError::into_inner)
    }

    /// What may differ, with the text of the statement of a Bind.
    pub fn allowed(&self, statement: Option<Vec<u8>>) -> AllowedDifferences<'_> {
        AllowedDifferences { rules: &self.rules, adviser: &self.adviser, statement }
    }

    fn openings(&self) -> MutexGuard<'_, VecDeque<PendingClient>> {
        self.openings.lock().unwrap_or_else(PoisonError::into_inner)
    }

    pub fn tell_difference(&self, report: &DifferenceReport) {
        self.is_different.store(true, Ordering::Relaxed);
        self.stderr.say_plain(report.words());
    }

    /// Tells that a client may mean another message than it is answered, which was answered otherwise: once for a request
    /// where that is let pass, and else by what ends the session.
    pub fn tell_doubt(&self, request: usize, rival: usize) -> Option<DifferenceReport> {
        let report =
            self.is_strict.then(|| DifferenceReport::of_doubt(&self.recording, request, rival));
        match &report {
            Some(report) => {
                self.is_ambiguous.store(true, Ordering::Relaxed);
                self.stderr.say_plain(report.words());
            }
            None => {
                self.pool().pass_over_rivals(request);
                self.stderr.say(format!("note: {}", doubt(&self.recording, request, rival)));
            }
        }
        report
    }

    /// Ends the connections that have had their time for a Startup, where others wait for a place.
    fn make_room(&self) {
        let mut openings = self.openings();
        let late = openings.partition_point(|(begun, _)| begun.elapsed() >= CROWDED_PATIENCE);
        for (_, go) in openings.drain(..late) {
            let _ = go.send(());
        }
    }

    /// Notes a client that hasn't opened its session, and gives what tells it that it has to go.
    fn note_opening(&self) -> oneshot::Receiver<()> {
        let (go, has_to_go) = oneshot::channel();
        let mut openings = self.openings();
        openings.retain(|(_, go)| !go.is_closed());
        openings.push_back((Instant::now(), go));
        has_to_go
    }

    /// Ends a session, and the program where nothing is left to do.
    pub fn leave(&self, slot: usize, ended: Result<bool>) {
        let is_replayed = *ended.as_ref().unwrap_or(&false);
        let is_done = {
            let mut pool = self.pool();
            pool.leave(slot, is_replayed);
            // More may come that isn't recorded.
            pool.is_done() && self.renewal.is_none()
        };
        let is_cut = !is_replayed && !self.goes_on;
        match ended.map_err(|why| why.downcast::<Failure>()) {
            Err(Ok(failure)) => drop(self.end.try_send(Err(failure))),
            _ if self.has_command => {}
            _ if is_cut || is_done => drop(self.end.try_send(Ok(()))),
            _ => {}
        }
    }
}

impl Shared {
    /// Ends a client that got no connection: it is counted for the one that it differs from.
    pub fn fail(&self, connection: Option<usize>) {
        let slot = connection.filter(|it| self.pool().take_failed(*it));
        if let Some(slot) = slot {
            self.leave(slot, Ok(false));
        } else if !self.goes_on && !self.has_command {
            let _ = self.end.try_send(Ok(()));
        }
    }
}

/// A place for each session that there can be at a time.
pub fn permits(workers: &Workers) -> Arc<Semaphore> {
    Arc::new(Semaphore::new(most_sessions(DESCRIPTORS, workers.count())))
}

/// Serves until all is replayed, a client differs, or something fails; where there is a command, until something fails.
pub async fn serve(
    shared: Arc<Shared>,
    listeners: Vec<Listener>,
    workers: &Arc<Workers>,
    permits: &Arc<Semaphore>,
    mut ends: mpsc::Receiver<Result<(), Failure>>,
) -> Result<(), Failure> {
    for listener in listeners {
        let (shared, permits, workers) = (shared.clone(), permits.clone(), workers.clone());
        tokio::spawn(async move {
            if let Err(why) = accept(&shared, &listener, &permits, &workers).await {
                let failure = Failure::new(
                    ExitStatus::Local,
                    format!("no connection can be accepted: {}", plain(&why)),
                );
                let _ = shared.end.send(Err(failure)).await;
            }
        });
    }
    ends.recv().await.unwrap_or(Ok(()))
}

/// What is left to say of the sessions, and how the program ends.
pub fn ended(shared: &Shared, ended: Result<(), Failure>) -> ExitStatus {
    let unsaid = {
        let pool = shared.pool();
        let unsaid = pool.first_unsaid().filter(|_| pool.is_done());
        unsaid.map(|request| (shared.recording.connection_of(request), request))
    };
    let mut is_different = shared.is_different.load(Ordering::Relaxed);
    let is_ambiguous = shared.is_ambiguous.load(Ordering::Relaxed);
    let is_told = is_different || is_ambiguous || ended.is_err();
    if let (Some((connection, request)), false) = (unsaid, is_told) {
        is_different = true;
        let recorded = shared
            .recording
            .message(request)
            .map_or_else(|why| ReportedMessage::Words(why.to_string()), ReportedMessage::read);
        let received = ReportedMessage::Words("no client said it".to_owned());
        let place = (Some(connection), shared.recording.requests.number(request));
        let allowed = shared.allowed(None);
        shared
            .stderr
            .say_plain(DifferenceReport::new(place, &allowed, &recorded, &received, None).words());
    }
    let status = match ended {
        Err(failure) => {
            shared.stderr.say(&failure);
            failure.status
        }
        // A client that is refused may then differ.
        Ok(()) if is_ambiguous => ExitStatus::Ambiguous,
        Ok(()) if is_different => ExitStatus::Different,
        Ok(()) => ExitStatus::Ok,
    };
    let (replayed, all) = (shared.pool().replayed(), shared.recording.connections.len());
    shared.stderr.say(format!("{replayed} of {all} sessions are replayed"));
    status
}

/// Accepts clients. Where that can't be now, those that have said nothing for a while give their places.
async fn accept(
    shared: &Arc<Shared>,
    listener: &Listener,
    permits: &Arc<Semaphore>,
    workers: &Workers,
) -> std::io::Result<()> {
    loop {
        let permit = loop {
            match permits.clone().try_acquire_owned() {
                Ok(permit) => break permit,
                Err(_) => {
                    shared.make_room();
                    sleep(PAUSE).await;
                }
            }
        };
        match listener.accept().await {
            Ok((stream, peer)) => {
                let (session, has_to_go) = (shared.clone(), shared.note_opening());
                workers.spawn(async move {
                    let _permit = permit;
                    if let Ok(stream) = stream.watch() {
                        greet(&session, stream, peer, has_to_go).await;
                    }
                });
            }
            Err(why) if may_pass(&why) => {
                shared.make_room();
                sleep(PAUSE).await;
            }
            Err(why) => return Err(why),
        }
    }
}

/// Whether a client that gave up, or a lack that may pass, is why none is accepted: only a socket that is none isn't.
fn may_pass(why: &std::io::Error) -> bool {
    !matches!(why.kind(), std::io::ErrorKind::InvalidInput | std::io::ErrorKind::PermissionDenied)
}
