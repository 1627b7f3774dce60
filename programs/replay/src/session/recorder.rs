//! The recording of a session while it is replayed, from which it can go on with a server.

use crate::recorded::{MessageSlice, MessageSplitter};
use crate::renewal::Renewal;
use anyhow::{bail, ensure, Result};
use net::Stream;
use pg_record::Stopped;
use pgmsg::backend::{FieldKind, Message};
use pgmsg::{Decoder, Frame, Next};
use recording::{RecordKind, Side, MOST};
use std::time::Duration;
use tokio::io::{split, AsyncReadExt, AsyncWriteExt};
use tokio::time::timeout;

/// So many bytes of what the client said are held.
const PENDING_MOST: usize = 1 << 20;
/// After more messages of an answer no session is passed on.
const HEARD_MOST: usize = 10_000;
/// How long a server may take for what was said before.
const PATIENCE: Duration = Duration::from_secs(60);

/// Records what a client says and hears.
pub struct SessionRecorder<'s> {
    renewal: &'s Renewal,
    /// Of the connection in this run.
    pub number: u32,
    startup: Vec<u8>,
    /// What the client said since it heard something, its Startup too. It isn't recorded yet.
    pending: Vec<u8>,
    server: MessageSplitter,
    /// How many ReadyForQuery the client heard, and the tags of the messages that it heard after the last one.
    readies: usize,
    heard: Vec<u8>,
}

/// Whether a message of the server answers a message of the client.
fn is_answer(tag: u8) -> bool {
    !matches!(tag, b'N' | b'S' | b'A')
}

impl<'s> SessionRecorder<'s> {
    /// Begins with a client, at an address, that has said its Startup.
    pub async fn begin(
        renewal: &'s Renewal,
        peer: &str,
        startup: &[u8],
    ) -> Result<SessionRecorder<'s>, Stopped> {
        let number = renewal.sink.open(peer).await?;
        let (startup, server) = (startup.to_vec(), MessageSplitter::of_server());
        let pending = startup.clone();
        Ok(SessionRecorder {
            renewal,
            number,
            startup,
            pending,
            server,
            readies: 0,
            heard: Vec::new(),
        })
    }

    /// Takes what the client says.
    pub async fn say(&mut self, bytes: &[u8]) -> Result<(), Stopped> {
        self.pending.extend_from_slice(bytes);
        match self.pending.len() > PENDING_MOST {
            true => self.record_pending().await,
            false => Ok(()),
        }
    }

    /// Takes what the client is about to hear.
    pub async fn hear(&mut self, bytes: &[u8]) -> Result<(), Stopped> {
        self.record_pending().await?;
        self.record(Side::Server, bytes).await?;
        let mut rest = bytes;
        while let Ok(Some(cut)) = self.server.cut(&mut rest) {
            match cut {
                MessageSlice::Whole([b'Z', ..]) => {
                    self.readies += 1;
                    self.heard.clear();
                }
                MessageSlice::Whole(&[tag, ..])
                    if is_answer(tag) && self.heard.len() <= HEARD_MOST =>
                {
                    self.heard.push(tag)
                }
                _ => {}
            }
        }
        Ok(())
    }

    async fn record_pending(&mut self) -> Result<(), Stopped> {
        let pending = std::mem::take(&mut self.pending);
        self.record(Side::Client, &pending).await
    }

    async fn record(&self, side: Side, bytes: &[u8]) -> Result<(), Stopped> {
        for part in bytes.chunks(MOST) {
            self.renewal.sink.take(self.number, &[(RecordKind::Bytes(side), part)]).await?;
        }
        Ok(())
    }

    /// Takes the end of the session, whose client was or wasn't the first to leave.
    pub async fn end(mut self, first: Side) -> Result<(), Stopped> {
        self.record_pending().await?;
        self.renewal.sink.close_connection(self.number, first).await
    }

    /// Connects to the server, and says to it what the client said up to what it heard last. Answers the connection, what the
    /// server said after that, and what the client said.
    pub async fn catch_up(&mut self) -> Result<(Stream, Vec<u8>, Vec<u8>)> {
        ensure!(
            self.heard.len() <= HEARD_MOST,
            "the client has heard too much of the answer already"
        );
        let (server, rest) = timeout(PATIENCE, self.repeat()).await??;
        Ok((server, rest, std::mem::take(&mut self.pending)))
    }

    async fn repeat(&self) -> Result<(Stream, Vec<u8>)> {
        let (mut server, answer) = self.renewal.say(&self.startup).await?;
        let (mut from, mut to) = split(&mut server);
        let heard =
            AnswerSkipper { readies: self.readies, tags: &self.heard, error: String::new() };
        let (says, listens) = (self.say_again(&mut to), heard.listen(&mut from, answer));
        let (_, rest) = tokio::try_join!(says, listens)?;
        Ok((server, rest))
    }

    /// Says what is recorded of the client after its Startup, while the server listens: why it left, it says itself.
    async fn say_again(&self, to: &mut (impl AsyncWriteExt + Unpin)) -> Result<()> {
        let (mut recorded, mut said) = (self.renewal.recorded()?, self.startup.len());
        while let Some(record) = recorded.read()? {
            if record.connection != self.number || record.kind != RecordKind::Bytes(Side::Client) {
                continue;
            }
            let skipped = said.min(record.content.len());
            said -= skipped;
            if to.write_all(&record.content[skipped..]).await.is_err() {
                break;
            }
        }
        Ok(())
    }
}

/// Passes over what a client has heard already, when a server answers it again.
struct AnswerSkipper<'t> {
    readies: usize,
    tags: &'t [u8],
    /// The last error of the server.
    error: String,
}

impl AnswerSkipper<'_> {
    /// Reads as much of another server, of which some came before, and gives what came after it.
    async fn listen(
        mut self,
        from: &mut (impl AsyncReadExt + Unpin),
        mut held: Vec<u8>,
    ) -> Result<Vec<u8>> {
        let mut decoder = Decoder::of_server();
        loop {
            let mut at = 0;
            while self.readies > 0 || !self.tags.is_empty() {
                match decoder.next(&held[at..])? {
                    Next::Frame(frame) => {
                        at += frame.bytes.len();
                        self.pass(&frame)?;
                    }
                    Next::Incomplete { .. } => break,
                }
            }
            held.drain(..at);
            if self.readies == 0 && self.tags.is_empty() {
                return Ok(held);
            }
            let is_there = from.read_buf(&mut held).await.unwrap_or(0) > 0;
            ensure!(is_there, "the server ends the session{}", self.error);
        }
    }

    /// Passes over a message.
    fn pass(&mut self, frame: &Frame<'_>) -> Result<()> {
        let tag = frame.tag.unwrap_or_default();
        if tag == b'R' {
            check_open(frame.body())?;
        }
        if let Ok(Message::ErrorResponse(fields)) = Message::read(frame) {
            let why = fields.value(FieldKind::Message).unwrap_or_default();
            self.error = format!(": {}", lines::escape(&why));
        }
        match self.tags.split_first() {
            _ if tag == b'Z' && self.readies > 0 => self.readies -= 1,
            Some((first, rest)) if self.readies == 0 && is_answer(tag) => {
                ensure!(*first == tag, "the server answers otherwise than it did");
                self.tags = rest;
            }
            _ => {}
        }
        Ok(())
    }
}

/// Refuses a request for a password, which the client was not asked for.
fn check_open(body: &[u8]) -> Result<()> {
    match body {
        [0, 0, 0, 0] => Ok(()),
        _ => bail!("the server asks for a password, for which it is too late"),
    }
}
