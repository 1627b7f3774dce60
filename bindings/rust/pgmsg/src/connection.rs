//! A connection without a socket: which message may come when, and which request it answers.

use crate::backend::{self, TransactionStatus};
use crate::buffer::Buffer;
use crate::decoder::Decoder;
use crate::error::{Fault, Refusal};
use crate::flow::{self, Flow, Heard, Mode};
use crate::frame::{Frame, Next};
use crate::frontend;
use core::fmt;
use core::marker::PhantomData;

/// The tag of a DataRow.
const DATA_ROW: Option<u8> = Some(b'D');

/// The tag of a Terminate.
const TERMINATE: Option<u8> = Some(b'X');

/// The tag of an ErrorResponse.
const ERROR: u8 = b'E';

/// A connection as its client or its server holds it, without a socket: it says which message may be sent now, and which
/// request a message answers that was received.
///
/// The requests of a client are numbered from 0 on, in the order in which they are sent: each Query, Parse, Bind,
/// Describe, Execute, Close, Sync and FunctionCall. A message out of turn is an [`Error::Order`]. One that was to be sent
/// isn't written then, and changes nothing; after one that was received the connection is to be closed. No message can be
/// taken for the answer to another request.
///
/// A client answers for the password by [`scram`](crate::scram), and tests itself whether the method that the server asks
/// for is good enough: after an AuthenticationOk it is to ask [`is_finished`](crate::scram::Client::is_finished).
///
/// ```
/// use pgmsg::flow::Heard;
/// use pgmsg::{backend, frontend, Connection};
///
/// let (mut connection, mut out) = (Connection::client(), Vec::new());
/// connection.send(&frontend::Message::Startup(frontend::Startup::new(&[("user", "ann")])), &mut out)?;
/// let mut came = &b"R\0\0\0\x08\0\0\0\0Z\0\0\0\x05I"[..];
/// while let Some(event) = connection.receive(&mut came)? {
///     assert_eq!(event.whose, Heard::Login);
/// }
///
/// let number = connection.send(&frontend::Message::Query("TABLE t".into()), &mut out)?;
/// assert_eq!((number, connection.waits()), (Some(0), 1));
/// let mut came = &b"C\0\0\0\x0dSELECT 0\0Z\0\0\0\x05IZ\0\0\0\x05I"[..];
/// let event = connection.receive(&mut came)?.ok_or("a message")?;
/// assert_eq!(event.message()?, backend::Message::CommandComplete("SELECT 0".into()));
/// assert_eq!(event.whose, Heard::Answer { request: 0, is_last: false });
/// let event = connection.receive(&mut came)?.ok_or("a message")?;
/// assert_eq!(event.whose, Heard::Answer { request: 0, is_last: true });
///
/// let fault = connection.receive(&mut came).unwrap_err();
/// assert_eq!(fault.to_string(), "no request waits for an answer, at a message of the tag 'Z'");
/// # Ok::<(), Box<dyn std::error::Error>>(())
/// ```
pub struct Connection<S> {
    flow: Flow,
    decoder: Decoder,
    /// The request that the last message of the server answers, where that was a row: all rows of a run are of one.
    rows_of: Option<u64>,
    /// Whether the byte is due that answers an SSLRequest or a GSSENCRequest. A message isn't taken for it.
    is_byte_due: bool,
    side: PhantomData<S>,
}

/// The client's side of a [`Connection`].
#[derive(Clone, Copy, Debug)]
pub enum ClientSide {}

/// The server's side of a [`Connection`].
#[derive(Clone, Copy, Debug)]
pub enum ServerSide {}

/// A message that a client has received.
#[derive(Clone, Copy, Debug, PartialEq, Eq)]
#[non_exhaustive]
pub struct Answer<'a> {
    /// The message as its bytes, as [`RowIndex`](backend::RowIndex) takes the body of a row.
    pub frame: Frame<'a>,
    /// Which request it answers, and whether nothing more comes for that.
    pub whose: Heard,
}

impl<'a> Answer<'a> {
    /// Reads the message.
    #[inline]
    pub fn message(&self) -> Result<backend::Message<'a>, Fault> {
        backend::Message::read(&self.frame)
    }
}

/// A message that a server has received.
#[derive(Clone, Copy, Debug, PartialEq, Eq)]
#[non_exhaustive]
pub struct Asked<'a> {
    /// The message as its bytes.
    pub frame: Frame<'a>,
    /// Its number, where it is a request.
    pub request: Option<u64>,
}

impl<'a> Asked<'a> {
    /// Reads the message.
    #[inline]
    pub fn message(&self) -> Result<frontend::Message<'a>, Fault> {
        frontend::Message::read(&self.frame)
    }
}

impl Connection<ClientSide> {
    /// A client's connection, of which nothing was sent yet.
    pub fn client() -> Connection<ClientSide> {
        Connection::of(Flow::client(), Decoder::of_server())
    }

    /// A client's connection that was logged in elsewhere, and waits for nothing.
    pub fn ready() -> Connection<ClientSide> {
        Connection::of(Flow::ready(), Decoder::of_server())
    }

    /// Appends a message to what is to be sent, and gives its number where it is a request. A message that is refused, or
    /// out of turn, leaves the buffer and the connection as they were.
    #[inline]
    pub fn send<B: Buffer>(
        &mut self,
        message: &frontend::Message<'_>,
        out: &mut B,
    ) -> Result<Option<u64>, Error> {
        let start = out.bytes().len();
        message.write(out)?;
        let frame = Frame { tag: message.tag(), bytes: &out.bytes()[start..], offset: 0 };
        let said = self.flow.said(frame.tag, frame.body());
        if frame.tag.is_none() && said.is_ok() {
            self.is_byte_due =
                matches!(message, frontend::Message::SslRequest | frontend::Message::GssEncRequest);
        }
        said.map_err(|fault| {
            out.truncate(start);
            Error::of_order(fault, message.tag())
        })
    }

    /// Appends messages with tags that were written before, such as what [`scram::Client`](crate::scram::Client) answers.
    /// Those before one that is out of turn are appended.
    ///
    /// ```
    /// use pgmsg::connection::Connection;
    /// use pgmsg::frontend::{Message, Startup};
    ///
    /// let (mut connection, mut out) = (Connection::client(), Vec::new());
    /// connection.send(&Message::Startup(Startup::new(&[("user", "ann")])), &mut out)?;
    /// let mut password = Vec::new();
    /// Message::Password(pgmsg::frontend::Password(b"secret\0")).write(&mut password)?;
    /// let before = out.clone();
    /// assert!(connection.send_frames(&password, &mut out).is_err());
    /// assert_eq!(out, before);
    /// # Ok::<(), Box<dyn std::error::Error>>(())
    /// ```
    pub fn send_frames<B: Buffer>(&mut self, bytes: &[u8], out: &mut B) -> Result<(), Error> {
        let (mut decoder, mut rest) = (Decoder::of_open_client(), bytes);
        while let Next::Frame(frame) = decoder.next(rest)? {
            out.try_reserve(frame.bytes.len())?;
            let said = self.flow.said(frame.tag, frame.body());
            said.map_err(|fault| Error::of_order(fault, frame.tag))?;
            out.extend_from_slice(frame.bytes);
            rest = &rest[frame.bytes.len()..];
        }
        match rest.is_empty() {
            true => Ok(()),
            false => Err(Refusal::NotFrames.into()),
        }
    }

    /// Takes the message at the front of the bytes that came, which go on behind it; `None` where it isn't whole. A fault
    /// leaves the bytes where they are.
    #[inline(always)]
    pub fn receive<'a>(&mut self, bytes: &mut &'a [u8]) -> Result<Option<Answer<'a>>, Error> {
        let Next::Frame(frame) = self.decoder.next(bytes)? else {
            return Ok(None);
        };
        let whose = self.server_says(frame.tag, frame.body())?;
        *bytes = &bytes[frame.bytes.len()..];
        Ok(Some(Answer { frame, whose }))
    }

    /// Takes the byte that answers an SSLRequest or a GSSENCRequest, and tells whether the connection is encrypted from
    /// there on. An error in its place is a fault here too, since nobody has proved to be the server.
    ///
    /// Close the connection where more bytes came with an `S` or a `G`: they aren't encrypted.
    ///
    /// ```
    /// use pgmsg::connection::Connection;
    /// use pgmsg::frontend::Message;
    ///
    /// let (mut connection, mut out) = (Connection::client(), Vec::new());
    /// connection.send(&Message::SslRequest, &mut out)?;
    /// assert!(!connection.receive_encryption(b'N')?);
    /// # Ok::<(), Box<dyn std::error::Error>>(())
    /// ```
    pub fn receive_encryption(&mut self, byte: u8) -> Result<bool, Error> {
        self.byte_says(byte)?;
        Ok(byte != b'N')
    }
}

impl Connection<ServerSide> {
    /// A server's connection, of which nothing was received yet.
    ///
    /// ```
    /// use pgmsg::backend::{Authentication, Message};
    /// use pgmsg::connection::{Connection, Error};
    /// use pgmsg::flow;
    ///
    /// let (mut connection, mut out) = (Connection::server(), Vec::new());
    /// let mut came = &b"\0\0\0\x12\0\x03\0\0user\0ann\0\0"[..];
    /// let asked = connection.receive(&mut came)?.ok_or("a message")?;
    /// assert_eq!((asked.message()?.name(), asked.request), ("Startup", None));
    ///
    /// // A row isn't due before the login is over.
    /// let fault = connection.send(&Message::DataRow([].into()), &mut out).unwrap_err();
    /// assert!(matches!(fault, Error::Order { fault: flow::Fault::NotReady, .. }));
    /// connection.send(&Message::Authentication(Authentication::Ok), &mut out)?;
    /// assert_eq!(out, b"R\0\0\0\x08\0\0\0\0");
    /// # Ok::<(), Box<dyn std::error::Error>>(())
    /// ```
    pub fn server() -> Connection<ServerSide> {
        Connection::of(Flow::server(), Decoder::of_client())
    }

    /// A server's connection whose client was logged in elsewhere, and that has nothing to answer.
    pub fn ready_server() -> Connection<ServerSide> {
        Connection::of(Flow::ready_server(), Decoder::of_open_client())
    }

    /// Appends a message to what is to be sent, and gives whose it is. A message that is refused, or out of turn, leaves
    /// the buffer and the connection as they were.
    #[inline]
    pub fn send<B: Buffer>(
        &mut self,
        message: &backend::Message<'_>,
        out: &mut B,
    ) -> Result<Heard, Error> {
        let start = out.bytes().len();
        message.write(out)?;
        let frame = Frame { tag: message.tag(), bytes: &out.bytes()[start..], offset: 0 };
        let whose = self.server_says(frame.tag, frame.body());
        whose.inspect_err(|_| out.truncate(start))
    }

    /// Appends the byte that answers an SSLRequest or a GSSENCRequest: `S`, `G` or `N`.
    pub fn send_encryption<B: Buffer>(&mut self, byte: u8, out: &mut B) -> Result<(), Error> {
        out.try_reserve(1)?;
        self.byte_says(byte)?;
        out.extend_from_slice(&[byte]);
        Ok(())
    }

    /// Takes the message at the front of the bytes that came, which go on behind it; `None` where it isn't whole, or where
    /// the request before is to be answered first, as before a Terminate too: after that nothing is sent. A fault leaves
    /// the bytes where they are.
    #[inline]
    pub fn receive<'a>(&mut self, bytes: &mut &'a [u8]) -> Result<Option<Asked<'a>>, Error> {
        let mut decoder = self.decoder.clone();
        let Next::Frame(frame) = decoder.next(bytes)? else {
            return Ok(None);
        };
        if frame.tag == TERMINATE && matches!(self.mode(), Mode::Busy | Mode::CopyOut) {
            return Ok(None);
        }
        let request = match self.flow.said(frame.tag, frame.body()) {
            Ok(request) => request,
            Err(flow::Fault::Busy) => return Ok(None),
            Err(fault) => return Err(Error::of_order(fault, frame.tag)),
        };
        self.is_byte_due = frame.tag.is_none() && decoder.expects_first();
        (self.decoder, self.rows_of) = (decoder, None);
        *bytes = &bytes[frame.bytes.len()..];
        Ok(Some(Asked { frame, request }))
    }
}

impl<S> Connection<S> {
    fn of(flow: Flow, decoder: Decoder) -> Connection<S> {
        Connection { flow, decoder, rows_of: None, is_byte_due: false, side: PhantomData }
    }

    /// Refuses messages to be received of more than so many bytes, as [`Decoder::with_limit`] does.
    pub fn with_limit(mut self, limit: usize) -> Connection<S> {
        self.decoder = self.decoder.with_limit(limit);
        self
    }

    /// What the connection waits for.
    pub fn mode(&self) -> Mode {
        self.flow.mode()
    }

    /// The status that the last ReadyForQuery reported.
    pub fn status(&self) -> Option<TransactionStatus> {
        self.flow.status()
    }

    /// How many requests were sent from the first that isn't answered on.
    pub fn waits(&self) -> u64 {
        self.flow.waits()
    }

    /// The number of the first request that waits; where none does, of the next one that is sent.
    pub fn first(&self) -> u64 {
        self.flow.first()
    }

    /// A message of the server goes to its client. A row behind a row is of the same request, and leads nowhere.
    #[inline(always)]
    fn server_says(&mut self, tag: Option<u8>, body: &[u8]) -> Result<Heard, Error> {
        match self.rows_of {
            Some(request) if tag == DATA_ROW => Ok(Heard::Answer { request, is_last: false }),
            _ => self.step(tag, body).map_err(|fault| Error::of_order(fault, tag)),
        }
    }

    /// The byte that answers a request for encryption goes to its client.
    fn byte_says(&mut self, byte: u8) -> Result<(), Error> {
        let heard = match self.is_byte_due && byte != ERROR {
            true => self.flow.heard(Some(byte), &[]),
            false => Err(flow::Fault::NotReady),
        };
        heard.map_err(|fault| Error::of_order(fault, Some(byte)))?;
        self.is_byte_due = false;
        Ok(())
    }

    #[inline(never)]
    fn step(&mut self, tag: Option<u8>, body: &[u8]) -> Result<Heard, flow::Fault> {
        if self.is_byte_due && tag != Some(ERROR) {
            return Err(flow::Fault::NotReady);
        }
        let whose = self.flow.heard(tag, body)?;
        self.is_byte_due = false;
        self.rows_of = match whose {
            Heard::Answer { request, .. } if tag == DATA_ROW => Some(request),
            _ => None,
        };
        Ok(whose)
    }
}

/// Shows what it waits for.
impl<S> fmt::Debug for Connection<S> {
    fn fmt(&self, f: &mut fmt::Formatter<'_>) -> fmt::Result {
        f.debug_tuple("Connection").field(&self.flow).finish()
    }
}

/// Why a message isn't sent, or can't be taken.
#[derive(Clone, Debug, PartialEq, Eq)]
#[non_exhaustive]
pub enum Error {
    /// It can't be written or read.
    Message(Fault),
    /// It is out of turn.
    Order {
        /// Why it can't come now.
        fault: flow::Fault,
        /// Its tag, or the byte that answers a request for encryption.
        tag: Option<u8>,
    },
}

impl Error {
    #[cold]
    fn of_order(fault: flow::Fault, tag: Option<u8>) -> Error {
        Error::Order { fault, tag }
    }
}

impl From<Fault> for Error {
    #[cold]
    fn from(fault: Fault) -> Error {
        Error::Message(fault)
    }
}

impl From<Refusal> for Error {
    #[cold]
    fn from(refusal: Refusal) -> Error {
        Error::Message(refusal.into())
    }
}

impl fmt::Display for Error {
    fn fmt(&self, f: &mut fmt::Formatter<'_>) -> fmt::Result {
        let (fault, tag) = match self {
            Error::Message(fault) => return fault.fmt(f),
            Error::Order { fault, tag } => (*fault, tag),
        };
        match tag {
            Some(tag) => {
                write!(f, "{fault}, at a message of the tag {:?}", *tag as char)
            }
            None => write!(f, "{fault}, at a message without a tag"),
        }
    }
}

impl core::error::Error for Error {
    fn source(&self) -> Option<&(dyn core::error::Error + 'static)> {
        match self {
            Error::Message(fault) => Some(fault),
            Error::Order { .. } => None,
        }
    }
}

#[cfg(feature = "std")]
impl From<Error> for std::io::Error {
    fn from(error: Error) -> std::io::Error {
        match error {
            Error::Message(fault) => fault.into(),
            error => std::io::Error::new(std::io::ErrorKind::InvalidData, error),
        }
    }
}
