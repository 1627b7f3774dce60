//! What is to be sent to a client, and what it waits for.

use super::recorder::SessionRecorder;
use crate::recorded::{Recording, RereadError, Wait, Window};
use crate::serve::Shared;
use net::Stream;
use pg_record::Stopped;
use std::collections::VecDeque;
use std::time::{Duration, Instant};
use tokio::io::AsyncWriteExt;

/// Bytes up to this count are sent together.
const TOGETHER: usize = 64 << 10;

/// What is to be sent.
enum QueuedAnswer {
    /// What was recorded, by its number; when the client said what it answers, here and by the recording's clock.
    Recorded {
        number: usize,
        said_at: Instant,
        recorded_at: u64,
    },
    Made(Vec<u8>),
}

#[derive(Default)]
pub struct SendQueue<'s> {
    answers: VecDeque<QueuedAnswer>,
    /// What another client's message causes that hasn't come.
    late: Vec<usize>,
    keeps_times: bool,
    together: Vec<u8>,
    /// What was read of the recording for this session.
    pub window: Window,
    /// Where the session is recorded too.
    pub recorder: Option<SessionRecorder<'s>>,
}

/// What is left to wait for once all is sent that could be.
#[derive(Clone, Copy, Debug, Default)]
pub struct SendWait {
    pub due: Option<Instant>,
    /// Other clients, or a request to cancel.
    pub is_for_others: bool,
}

#[derive(Debug)]
pub enum SendError {
    Changed(RereadError),
    Broken,
}

impl From<RereadError> for SendError {
    fn from(why: RereadError) -> SendError {
        SendError::Changed(why)
    }
}

impl From<std::io::Error> for SendError {
    fn from(_: std::io::Error) -> SendError {
        SendError::Broken
    }
}

impl From<Stopped> for SendError {
    fn from(_: Stopped) -> SendError {
        SendError::Broken
    }
}

/// Whether an answer can be sent.
enum SendGate {
    Open,
    At(Instant),
    Others,
}

impl<'s> SendQueue<'s> {
    pub fn new(keeps_times: bool, recorder: Option<SessionRecorder<'s>>) -> SendQueue<'s> {
        SendQueue { keeps_times, recorder, ..SendQueue::default() }
    }

    /// Adds what was heard of a recorded message that the client has said at a time.
    pub fn add(&mut self, recording: &Recording, request: usize, said_at: Instant) {
        let recorded_at = if self.keeps_times { recording.requests.time(request) } else { 0 };
        let answers = recording.answer_of(request).map(|number| QueuedAnswer::Recorded {
            number,
            said_at,
            recorded_at,
        });
        self.answers.extend(answers);
    }

    /// Adds messages that aren't recorded.
    pub fn add_made(&mut self, bytes: Vec<u8>) {
        self.answers.push_back(QueuedAnswer::Made(bytes));
    }

    /// Whether nothing is left to send but what other clients cause.
    pub fn is_empty(&self) -> bool {
        self.answers.is_empty()
    }

    /// Sends what nothing is waited for.
    pub async fn send(
        &mut self,
        shared: &Shared,
        slot: usize,
        stream: &mut Stream,
        holds: bool,
    ) -> Result<SendWait, SendError> {
        let mut sent = SendWait::default();
        if holds && self.late.is_empty() {
            return Ok(sent);
        }
        while let Some(answer) = self.next(shared, slot) {
            match self.gate(shared, slot, &answer) {
                SendGate::Open => self.put(&shared.recording, answer, stream).await?,
                SendGate::At(due) => sent.due = Some(due),
                SendGate::Others => sent.is_for_others = true,
            }
            if sent.due.is_some() || sent.is_for_others {
                break;
            }
        }
        sent.is_for_others |= !self.late.is_empty();
        flush(&mut self.together, &mut self.recorder, stream).await?;
        Ok(sent)
    }

    /// The next answer, of what other clients have caused where a whole answer is sent.
    fn next(&mut self, shared: &Shared, slot: usize) -> Option<QueuedAnswer> {
        if self.answers.is_empty() && !self.late.is_empty() {
            self.take_late(shared, slot);
        }
        self.answers.pop_front()
    }

    /// Takes up what other clients have caused, where a whole answer is sent.
    fn take_late(&mut self, shared: &Shared, slot: usize) {
        let pool = shared.pool();
        let now = Instant::now();
        let is_due = |number: &usize| match shared.recording.wait(*number) {
            Wait::Request(request) => pool.is_said(slot, request),
            _ => true,
        };
        while self.late.first().is_some_and(is_due) {
            let number = self.late.remove(0);
            self.answers.push_back(QueuedAnswer::Recorded {
                number,
                said_at: now,
                recorded_at: u64::MAX,
            });
        }
    }

    /// Whether an answer can be sent; else it is put back, or kept for later where others aren't behind it.
    fn gate(&mut self, shared: &Shared, slot: usize, answer: &QueuedAnswer) -> SendGate {
        let QueuedAnswer::Recorded { number, said_at, recorded_at } = *answer else {
            return SendGate::Open;
        };
        let mut due = None;
        match shared.recording.wait(number) {
            Wait::No => {}
            Wait::Time(milliseconds) => {
                due = Some(said_at + Duration::from_millis(milliseconds.into()))
            }
            Wait::Cancel if !shared.pool().take_cancel(slot) => {
                self.put_back(number, said_at, recorded_at);
                return SendGate::Others;
            }
            Wait::Cancel => {}
            Wait::Request(request) if shared.pool().is_said(slot, request) => {}
            Wait::Request(_) => {
                self.late.push(number);
                return SendGate::Open;
            }
        }
        if let Some(time) = shared.recording.answered_at(number).filter(|it| *it > recorded_at) {
            due = Some(said_at + Duration::from_micros(time - recorded_at));
        }
        match due.filter(|it| *it > Instant::now()) {
            Some(due) => {
                self.put_back(number, said_at, recorded_at);
                SendGate::At(due)
            }
            None => SendGate::Open,
        }
    }

    fn put_back(&mut self, number: usize, said_at: Instant, recorded_at: u64) {
        self.answers.push_front(QueuedAnswer::Recorded { number, said_at, recorded_at });
    }

    async fn put(
        &mut self,
        recording: &Recording,
        answer: QueuedAnswer,
        stream: &mut Stream,
    ) -> Result<(), SendError> {
        let bytes = match &answer {
            QueuedAnswer::Recorded { number, .. } if self.late.last() == Some(number) => {
                return Ok(())
            }
            QueuedAnswer::Recorded { number, .. } => {
                recording.answer_chunk(*number, &mut self.window)?
            }
            QueuedAnswer::Made(bytes) => bytes,
        };
        if self.together.len() + bytes.len() > TOGETHER {
            flush(&mut self.together, &mut self.recorder, stream).await?;
        }
        match bytes.len() <= TOGETHER {
            true => self.together.extend_from_slice(bytes),
            false => write(bytes, &mut self.recorder, stream).await?,
        }
        Ok(())
    }

    /// Sends all that is left, whatever it waits for but other clients.
    pub async fn send_all(
        &mut self,
        shared: &Shared,
        stream: &mut Stream,
    ) -> Result<(), SendError> {
        while let Some(answer) = self.answers.pop_front() {
            self.put(&shared.recording, answer, stream).await?;
        }
        flush(&mut self.together, &mut self.recorder, stream).await
    }
}

/// Sends what is together.
async fn flush(
    together: &mut Vec<u8>,
    recorder: &mut Option<SessionRecorder<'_>>,
    stream: &mut Stream,
) -> Result<(), SendError> {
    if !together.is_empty() {
        write(together, recorder, stream).await?;
        together.clear();
        stream.flush().await?;
    }
    Ok(())
}

/// Sends bytes once they are recorded.
async fn write(
    bytes: &[u8],
    recorder: &mut Option<SessionRecorder<'_>>,
    stream: &mut Stream,
) -> Result<(), SendError> {
    if let Some(recorder) = recorder {
        recorder.hear(bytes).await?;
    }
    Ok(stream.write_all(bytes).await?)
}
