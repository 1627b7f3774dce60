//! A client, and what it is answered.

mod greeting;
mod incoming;
mod passing;
mod recorder;
mod recovery;
mod scram;
mod send_queue;

pub use greeting::greet;
pub use recorder::SessionRecorder;
pub use scram::ScramSecret;

use crate::fingerprint::Fingerprinter;
use crate::recorded::{ChunkOffset, ConnectionEnding, MessageSplitter, RequestReader, RereadError};
use crate::report::{Difference, DifferenceReport, ReportedMessage};
use crate::serve::Shared;
use anyhow::Result;
use net::{ExitStatus, Failure, Stream};
use pgmsg::backend::Message;
use recovery::RefuseUntil;
use send_queue::{SendQueue, SendWait};
use std::time::{Duration, Instant};
use tokio::io::{AsyncReadExt, AsyncWriteExt};
use tokio::sync::futures::Notified;
use tokio::time::{sleep_until, timeout};

/// How long a client may take to hang up, and how long to take what was recorded before an error.
const PATIENCE: Duration = Duration::from_secs(2);
const PATIENCE_WITH_ERROR: Duration = Duration::from_secs(10);
const READ_AT_ONCE: usize = 64 << 10;

/// Whether more is taken of a client.
#[derive(Clone, Copy, Debug, PartialEq, Eq)]
enum SessionPhase {
    Serving,
    /// What is to be sent is sent in its time, unless the client says more before: the server hung up after it.
    HangingUp,
    /// What is to be sent is sent, and nothing more is taken.
    Ending,
    /// The client said what isn't recorded, and goes on with the server where there is one.
    Missing,
}

/// A message or data that are compared as bytes.
struct ByteComparison {
    request: usize,
    reader: RequestReader,
    len: u64,
    left: u64,
    /// They are a COPY's data, after which others may come.
    is_data: bool,
    /// Where the recorded message begins.
    begins: ChunkOffset,
}

/// A client that has a slot, and how far it is answered.
pub struct ReplaySession<'s> {
    shared: &'s Shared,
    slot: usize,
    phase: SessionPhase,
    has_failed: bool,
    /// The recorded message that comes next, while the client says byte by byte what was recorded: names stand for the same
    /// as there.
    next: Option<usize>,
    /// Makes the fingerprints of what it says otherwise.
    fingerprinter: Fingerprinter,
    splitter: MessageSplitter,
    /// Where a long message isn't over, how many bytes of it came.
    long: usize,
    comparison: Option<ByteComparison>,
    /// Up to what the client is refused, since what it said within a transaction isn't recorded.
    refuse_until: Option<RefuseUntil>,
    out: SendQueue<'s>,
    /// The difference where something is missing.
    missing: Option<DifferenceReport>,
    /// The client says no more.
    is_leaving: bool,
    /// Messages of the standby's state are left out.
    is_both: bool,
    /// All since the last ReadyForQuery was answered by the rules.
    is_ignoring: bool,
    /// The state of the transaction that the client knows.
    is_in_transaction: bool,
    heard_at: Instant,
    /// The recorded client said more before it heard anything.
    is_owing: bool,
    /// What is heard of the last message is sent with what is heard of later ones, as a server does.
    holds: bool,
    /// The last message is one after which a server sends what it has.
    ends_run: bool,
}

impl<'s> ReplaySession<'s> {
    /// The session of a client that has a slot, which may be recorded too.
    pub fn new(
        shared: &'s Shared,
        slot: usize,
        recorder: Option<SessionRecorder<'s>>,
    ) -> ReplaySession<'s> {
        ReplaySession {
            shared,
            slot,
            phase: SessionPhase::Serving,
            has_failed: false,
            next: None,
            fingerprinter: Fingerprinter::new(shared.rules.clone()),
            splitter: MessageSplitter::of_client(),
            long: 0,
            comparison: None,
            refuse_until: None,
            out: SendQueue::new(shared.keeps_times, recorder),
            missing: None,
            is_leaving: false,
            is_both: false,
            is_ignoring: false,
            is_in_transaction: false,
            heard_at: Instant::now(),
            is_owing: false,
            holds: false,
            ends_run: true,
        }
    }

    /// Serves a client whose Startup fits a connection, and which has said these bytes after it. Answers whether it did
    /// as recorded, or `None` where it went on with a server.
    pub async fn serve(
        mut self,
        mut stream: Stream,
        startup: usize,
        bytes: Vec<u8>,
    ) -> Result<Option<bool>> {
        let rival = self.shared.pool().rival_of_login(self.slot);
        if self.passes(startup, rival) {
            self.out.add(&self.shared.recording, startup, self.heard_at);
            self.next = Some(startup + 1);
            self.end_without_turns();
        }
        self.note(&bytes).await;
        let ends = self.talk(&mut stream, bytes).await;
        if self.phase == SessionPhase::Missing && ends.is_ok() {
            let Some(left) = self.pass_on(stream).await else {
                return Ok(None);
            };
            stream = left;
        }
        if self.phase == SessionPhase::Ending && ends.is_ok() {
            let _ = timeout(PATIENCE_WITH_ERROR, self.send_rest(&mut stream)).await;
            linger(&mut stream).await;
        }
        self.end_recording().await;
        ends.map(|()| Some(!self.has_failed))
    }

    /// Ends a session of which nothing after its Startup is recorded, where its client didn't end it.
    fn end_without_turns(&mut self) {
        let expected = self.shared.pool().expected(self.slot);
        match expected.ending {
            _ if expected.has_turns => {}
            ConnectionEnding::ByServer => self.phase = SessionPhase::HangingUp,
            ConnectionEnding::Unrecorded { is_idle: false } => self.differ_at_cut(),
            _ => {}
        }
    }

    /// Whether the session goes on where another message fits that was answered otherwise, if one does.
    fn passes(&mut self, request: usize, rival: Option<usize>) -> bool {
        let report = rival.and_then(|it| self.shared.tell_doubt(request, it));
        if let Some(report) = &report {
            self.refuse_all(report);
        }
        report.is_none()
    }

    /// Ends the session where the recording does, in the midst of an answer.
    fn differ_at_cut(&mut self) {
        let recorded = ReportedMessage::Words("the recording ends here".to_owned());
        self.differ_from(
            &recorded,
            &ReportedMessage::Words("a client that waits for more".to_owned()),
            None,
        );
    }

    /// Takes what comes and sends what answers it, until nothing more is to be taken.
    async fn talk(&mut self, stream: &mut Stream, mut bytes: Vec<u8>) -> Result<()> {
        loop {
            // What others do from here on is seen.
            let stirred = self.shared.stirred.notified();
            self.take(&bytes).map_err(|why| self.changed(&why))?;
            bytes.clear();
            if matches!(self.phase, SessionPhase::Ending | SessionPhase::Missing) {
                return Ok(());
            }
            let waits = match self.out.send(self.shared, self.slot, stream, self.holds).await {
                Ok(sent) => sent,
                Err(send_queue::SendError::Changed(why)) => return Err(self.changed(&why).into()),
                // A client that is gone hears nothing more.
                Err(send_queue::SendError::Broken) => {
                    return self.end_of_client().map_err(|why| self.changed(&why).into())
                }
            };
            if self.phase == SessionPhase::HangingUp && self.out.is_empty() {
                self.phase = SessionPhase::Ending;
                return Ok(());
            }
            if !self.wait(stream, &mut bytes, waits, stirred).await {
                return self.end_of_client().map_err(|why| self.changed(&why).into());
            }
        }
    }

    /// Waits for bytes, or for something else to do. False where the client has ended.
    async fn wait(
        &mut self,
        stream: &mut Stream,
        bytes: &mut Vec<u8>,
        waits: SendWait,
        stirred: Notified<'_>,
    ) -> bool {
        bytes.reserve(READ_AT_ONCE);
        let patience = self.shared.patience.filter(|_| self.is_owing).map(|it| self.heard_at + it);
        let due = waits.due.into_iter().chain(patience).min();
        let read = if due.is_none() && !waits.is_for_others {
            stream.read_buf(bytes).await
        } else {
            let far = Instant::now() + Duration::from_secs(86400);
            tokio::select! {
                read = stream.read_buf(bytes) => read,
                () = sleep_until(due.unwrap_or(far).into()) => {
                    self.check_patience(patience);
                    return true;
                }
                () = stirred, if waits.is_for_others => return true,
            }
        };
        self.heard_at = Instant::now();
        self.note(bytes).await;
        matches!(read, Ok(count) if count > 0)
    }

    /// Ends a session whose client leaves out what it had sent at once.
    fn check_patience(&mut self, patience: Option<Instant>) {
        if patience.is_some_and(|it| Instant::now() >= it) {
            self.is_leaving = true;
            self.differ(ReportedMessage::Words("nothing, for too long".to_owned()));
        }
    }

    /// Sends all that is left, whatever it waits for.
    async fn send_rest(&mut self, stream: &mut Stream) {
        let _ = self.out.send_all(self.shared, stream).await;
    }

    /// Ends the session where the client says otherwise than recorded.
    fn differ(&mut self, received: ReportedMessage) {
        let report = self.report(&received);
        self.end_by(report);
    }

    /// The same with what was recorded, and with the place where both part.
    fn differ_from(
        &mut self,
        recorded: &ReportedMessage,
        received: &ReportedMessage,
        part: Option<Difference>,
    ) {
        let report = self.report_of(recorded, received, part);
        self.end_by(report);
    }

    /// The difference of what the client says.
    fn report(&self, received: &ReportedMessage) -> DifferenceReport {
        let expected = self.shared.pool().expected(self.slot);
        let recorded = ReportedMessage::recorded(&self.shared.recording, &expected);
        self.report_of(&recorded, received, None)
    }

    fn report_of(
        &self,
        recorded: &ReportedMessage,
        received: &ReportedMessage,
        part: Option<Difference>,
    ) -> DifferenceReport {
        let (expected, shared) = (self.shared.pool().expected(self.slot), self.shared);
        let statement = expected.request.and_then(|it| shared.recording.statement_of(it));
        let place = (Some(expected.connection), expected.number);
        DifferenceReport::new(place, &shared.allowed(statement), recorded, received, part)
    }

    fn end_by(&mut self, report: DifferenceReport) {
        if self.out.recorder.is_some() && !self.is_leaving {
            self.missing = Some(report);
            self.phase = SessionPhase::Missing;
        } else {
            self.fail(&report);
        }
    }

    /// Ends the session by a difference.
    fn fail(&mut self, report: &DifferenceReport) {
        self.shared.tell_difference(report);
        self.refuse_all(report);
    }

    /// Ends the session by an error.
    fn refuse_all(&mut self, report: &DifferenceReport) {
        self.out.add_made(report.error());
        self.has_failed = true;
        self.phase = SessionPhase::Ending;
    }

    fn changed(&self, why: &RereadError) -> Failure {
        Failure::new(ExitStatus::Damaged, format!("{} {why}", self.shared.recording.path.display()))
    }
}

/// Sends a message at once.
async fn say(stream: &mut Stream, message: &Message<'_>) -> Result<()> {
    let mut bytes = Vec::new();
    message.write(&mut bytes)?;
    stream.write_all(&bytes).await?;
    Ok(stream.flush().await?)
}

/// Hangs up once all is sent, and waits until the client does: what isn't read when a socket is closed may take back what
/// was written to it.
async fn linger(stream: &mut Stream) {
    let mut rest = vec![0; 4096];
    let _ = stream.shutdown().await;
    let _ =
        timeout(PATIENCE, async { while matches!(stream.read(&mut rest).await, Ok(1..)) {} }).await;
}
