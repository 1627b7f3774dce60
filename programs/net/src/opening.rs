//! How a client opens its connection.

use crate::{ServerTls, Stream};
use pgmsg::frontend::Message;
use pgmsg::{Decoder, Fault, Frame, Next};
use std::io;
use tokio::io::{AsyncReadExt, AsyncWriteExt};

/// The first byte of TLS. No length of a first message begins with it.
const HANDSHAKE: u8 = 22;
/// The room for a first message to begin with; most are shorter.
const ROOM: usize = 512;

/// What is at the front of a client's bytes.
#[derive(Debug)]
pub enum ConnectionStart {
    /// The client hung up before its message was whole.
    End,
    /// TLS begins.
    Tls,
    /// A request for encryption, of so many bytes.
    SslRequest(usize),
    GssEncRequest(usize),
    /// Another first message, of so many bytes.
    Message(FirstMessage, usize),
}

/// What a client opens its connection with.
#[derive(Debug)]
pub enum FirstMessage {
    Startup,
    Cancel,
    /// No first message begins so.
    Broken(Fault),
}

/// A client whose first message is there that doesn't ask for encryption.
pub struct OpenedClient {
    pub stream: Stream,
    /// What it has sent.
    pub bytes: Vec<u8>,
    pub first: FirstMessage,
    /// How many of these bytes are the first message: 0 of one that is broken.
    pub length: usize,
}

/// Why a client is refused before its session.
#[derive(Debug, thiserror::Error)]
pub enum OpenError {
    #[error("asks for encryption again")]
    Again,
    #[error("begins with TLS, which isn't passed on")]
    Tls,
    #[error("goes on without the encryption that it asked for")]
    Unencrypted,
    #[error("fails at TLS: {0}")]
    Handshake(String),
    #[error("breaks its connection: {0}")]
    Broken(#[from] io::Error),
}

/// Reads until the message at the front is whole.
pub async fn read_start(stream: &mut Stream, bytes: &mut Vec<u8>) -> io::Result<ConnectionStart> {
    loop {
        if bytes.first() == Some(&HANDSHAKE) {
            return Ok(ConnectionStart::Tls);
        }
        match Decoder::of_client().next(bytes) {
            Err(fault) => return Ok(ConnectionStart::Message(FirstMessage::Broken(fault), 0)),
            Ok(Next::Frame(frame)) => return Ok(kind_of(&frame)),
            Ok(Next::Incomplete { .. }) => bytes.reserve(ROOM),
        }
        if stream.read_buf(bytes).await? == 0 {
            return Ok(ConnectionStart::End);
        }
    }
}

fn kind_of(frame: &Frame<'_>) -> ConnectionStart {
    let length = frame.bytes.len();
    match Message::read(frame) {
        Ok(Message::SslRequest) => ConnectionStart::SslRequest(length),
        Ok(Message::GssEncRequest) => ConnectionStart::GssEncRequest(length),
        Ok(Message::CancelRequest(_)) => ConnectionStart::Message(FirstMessage::Cancel, length),
        Ok(_) => ConnectionStart::Message(FirstMessage::Startup, length),
        Err(fault) => ConnectionStart::Message(FirstMessage::Broken(fault), 0),
    }
}

/// Answers requests for encryption, each kind once, until another first message is whole: by TLS where there is a
/// certificate and no Unix socket, else by a no. `None` is a client that hangs up before.
pub async fn open(
    stream: Stream,
    tls: Option<&ServerTls>,
) -> Result<Option<OpenedClient>, OpenError> {
    let mut client = OpeningClient::new(stream, tls);
    loop {
        if let Some(tls) = client.begins_tls().await? {
            client.stream = tls.accept(client.stream, true).await?;
            client.tls = None;
            client.has_asked_tls = true;
        }
        match read_start(&mut client.stream, &mut client.bytes).await? {
            ConnectionStart::End => return Ok(None),
            ConnectionStart::Tls => return Err(OpenError::Tls),
            ConnectionStart::SslRequest(length) => client = client.answer_tls(length).await?,
            ConnectionStart::GssEncRequest(length) => client.answer_gss(length).await?,
            ConnectionStart::Message(first, length) => {
                return Ok(Some(OpenedClient {
                    stream: client.stream,
                    bytes: client.bytes,
                    first,
                    length,
                }))
            }
        }
    }
}

/// A client before its first message.
struct OpeningClient<'t> {
    stream: Stream,
    bytes: Vec<u8>,
    /// How TLS is answered where it can be.
    tls: Option<&'t ServerTls>,
    has_asked_tls: bool,
    has_asked_gss: bool,
}

impl<'t> OpeningClient<'t> {
    fn new(stream: Stream, tls: Option<&'t ServerTls>) -> OpeningClient<'t> {
        OpeningClient {
            tls: tls.filter(|_| matches!(stream, Stream::Tcp(_))),
            stream,
            bytes: Vec::new(),
            has_asked_tls: false,
            has_asked_gss: false,
        }
    }

    /// Waits for the first byte where that may be one of TLS, and leaves it there.
    async fn begins_tls(&self) -> io::Result<Option<&'t ServerTls>> {
        let mut byte = [0];
        match (&self.stream, self.tls) {
            (Stream::Tcp(stream), Some(tls)) if self.bytes.is_empty() => {
                let count = stream.peek(&mut byte).await?;
                Ok(Some(tls).filter(|_| byte[..count] == [HANDSHAKE]))
            }
            _ => Ok(None),
        }
    }

    async fn say_no(&mut self, length: usize) -> io::Result<()> {
        self.bytes.drain(..length);
        self.stream.write_all(b"N").await?;
        self.stream.flush().await
    }

    async fn answer_gss(&mut self, length: usize) -> Result<(), OpenError> {
        if std::mem::replace(&mut self.has_asked_gss, true) {
            return Err(OpenError::Again);
        }
        Ok(self.say_no(length).await?)
    }

    async fn answer_tls(mut self, length: usize) -> Result<OpeningClient<'t>, OpenError> {
        if std::mem::replace(&mut self.has_asked_tls, true) {
            return Err(OpenError::Again);
        }
        let tls = match self.tls.take() {
            Some(tls) => tls,
            None => {
                self.say_no(length).await?;
                return Ok(self);
            }
        };
        // What was sent before the handshake may be another's (CVE-2021-23214).
        if self.bytes.len() > length {
            return Err(OpenError::Unencrypted);
        }
        self.bytes.clear();
        self.stream.write_all(b"S").await?;
        self.stream = tls.accept(self.stream, false).await?;
        Ok(self)
    }
}
