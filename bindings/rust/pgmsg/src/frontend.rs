//! What a client sends.
//!
//! [`Message`] is any of its messages. A variant has the parts of the message as a struct, where there are
//! several; these structs can be read and written alone too, but for [`Startup`] and [`CancelRequest`], which
//! [`Message::read_body`] reads.
//!
//! ```
//! use pgmsg::frontend::{Bind, Execute, Message, Parse};
//! use pgmsg::Value;
//!
//! let mut out = Vec::new();
//! Parse { query: "SELECT $1".into(), ..Parse::default() }.write(&mut out)?;
//! Bind { values: [Value::new(b"5")].into(), ..Bind::default() }.write(&mut out)?;
//! Execute::default().write(&mut out)?;
//! Message::Sync.write(&mut out)?;
//! # Ok::<(), pgmsg::Refusal>(())
//! ```

mod bind;
mod first;
mod password;
mod prepared;

pub use bind::{Bind, FunctionCall};
pub use first::{CancelRequest, Setting, Settings, Startup};
pub use password::{Md5Password, Password, PasswordMessage, SaslInitialResponse};
pub use pgmsg_core::pg_frames::frontend::MAX_FIRST_LENGTH;
pub use prepared::{Execute, Parse, Target};

use crate::body::checked;
use crate::buffer::{put_message, put_sound, Buffer};
use crate::byte_str::ByteStr;
use crate::error::{Fault, Refusal};
use crate::frame::Frame;
use crate::message::{messages, put_nothing, read_nothing};
use crate::owned::{owned, Kept};
use first::{put_gss_enc_request, put_ssl_request, read_first};
use pgmsg_core::pg_base::io::{Cursor, Ended, Sink, HEADER, MAX_BODY};
use pgmsg_core::pg_send::message::round_trip::check_ended;
use pgmsg_core::pg_send::message::{CopyData, RawClose, RawDescribe};
use pgmsg_core::pg_server::frontend;

/// The first five bytes of a CopyData message of either side, which `len` bytes of data follow.
///
/// A program that sends them one after the other needs no copy of the data, as
/// [`Message::write`] makes one.
///
/// Refused with [`MessageTooLong`](Refusal::MessageTooLong) above 2147483643 bytes.
///
/// ```
/// # use pgmsg::frontend::copy_head;
/// assert_eq!(copy_head(b"1\t2\n".len())?, *b"d\0\0\0\x08");
/// # Ok::<(), pgmsg::Refusal>(())
/// ```
#[inline]
pub fn copy_head(len: usize) -> Result<[u8; HEADER], Refusal> {
    if len > MAX_BODY {
        return Err(Refusal::MessageTooLong);
    }
    let mut head = [0; HEADER];
    Cursor::new(&mut head).put_head(b'd', len);
    Ok(head)
}

/// All of the body is data.
#[inline]
pub(crate) fn read_data(body: &[u8]) -> Result<ByteStr<'_>, Fault> {
    Ok(ByteStr(body))
}

/// Reads a text without its NUL.
#[inline]
fn read_text(body: &[u8]) -> Result<ByteStr<'_>, Fault> {
    Ok(ByteStr(frontend::read_text(checked(body)?)?))
}

/// Appends a message that is a text and its NUL.
#[inline]
fn put_text<B: Buffer>(tag: u8, text: ByteStr<'_>, out: &mut B) -> Result<(), Refusal> {
    put_sound(tag, Ended(text.0), check_ended(text.0), out)
}

messages! {
    /// A message from a client.
    ///
    /// ```
    /// use pgmsg::frontend::{Message, Startup};
    /// use pgmsg::{Decoder, Next};
    ///
    /// let messages = [
    ///     Message::Startup(Startup::new(&[("user", "ann")])),
    ///     Message::Query("SELECT 1".into()),
    ///     Message::Terminate,
    /// ];
    /// let mut stream = Vec::new();
    /// for message in &messages {
    ///     message.write(&mut stream)?;
    /// }
    ///
    /// let (mut decoder, mut rest, mut read) = (Decoder::of_client(), &stream[..], Vec::new());
    /// while let Next::Frame(frame) = decoder.next(rest)? {
    ///     read.push(Message::read(&frame)?);
    ///     rest = &rest[frame.bytes.len()..];
    /// }
    /// assert_eq!(read, messages);
    /// assert_eq!((read[1].tag(), read[1].name()), (Some(b'Q'), "Query"));
    /// assert_eq!(format!("{:?}", read[1]), r#"Query(b"SELECT 1")"#);
    /// # Ok::<(), Box<dyn std::error::Error>>(())
    /// ```
    read by read_first {
        /// A session is opened: StartupMessage.
        Startup(startup: Startup<'a>) = None, Startup::write;
        /// What another session runs is to be cancelled. The server answers nothing, and closes the connection.
        CancelRequest(cancel: CancelRequest<'a>) = None, CancelRequest::write;
        /// An encrypted connection is asked for. The server answers with one byte, `S` or `N`.
        SslRequest = None, put_ssl_request;
        /// A connection that GSSAPI encrypts is asked for. The server answers with one byte, `G` or `N`.
        GssEncRequest = None, put_gss_enc_request;
    }
    read by tag {
        /// A portal is made of a prepared statement and the values of its parameters.
        Bind(bind: Bind<'a>) = b'B', Bind::read, Bind::write;
        /// A statement or a portal is closed.
        Close(target: Target<'a>) = b'C', Target::read, put_message(&RawClose::from(*target));
        /// A part of the data of a COPY.
        CopyData(data: ByteStr<'a>) = b'd', read_data, put_message(&CopyData(data.0));
        /// The data of a COPY has ended.
        CopyDone = b'c';
        /// A COPY is given up, for this reason.
        CopyFail(reason: ByteStr<'a>) = b'f', read_text, put_text(b'f', *reason);
        /// A statement or a portal is described.
        Describe(target: Target<'a>) = b'D', Target::read, put_message(&RawDescribe::from(*target));
        /// A portal is run.
        Execute(execute: Execute<'a>) = b'E', Execute::read, Execute::write;
        /// The server is asked to send what it has.
        Flush = b'H';
        /// A function is called.
        FunctionCall(call: FunctionCall<'a>) = b'F', FunctionCall::read, FunctionCall::write;
        /// A statement is prepared.
        Parse(parse: Parse<'a>) = b'P', Parse::read, Parse::write;
        /// A request for authentication is answered: PasswordMessage, SASLInitialResponse, SASLResponse or
        /// GSSResponse, as the request says.
        Password(password: Password<'a>) = b'p', Password::read, Password::write;
        /// The statements of a text are run.
        Query(query: ByteStr<'a>) = b'Q', read_text, put_text(b'Q', *query);
        /// A run of messages ends, which the server answers with ReadyForQuery.
        Sync = b'S';
        /// The session ends.
        Terminate = b'X';
    }
}

owned! {
    /// A message from a client that owns its bytes: it is `'static` and `Send`.
    ///
    /// ```
    /// use pgmsg::frontend::{Message, OwnedMessage};
    ///
    /// let query = OwnedMessage::try_from(&Message::Query("SELECT 1".into()))?;
    /// let other = std::thread::spawn(move || query.message().name());
    /// assert_eq!(other.join().ok(), Some("Query"));
    /// # Ok::<(), pgmsg::Fault>(())
    /// ```
}

impl Message<'_> {
    /// Whether the message proves who the client is, and should not be logged: a password or another answer
    /// to a request for authentication, or the key of a CancelRequest. [`Debug`](core::fmt::Debug) leaves it
    /// out.
    ///
    /// ```
    /// use pgmsg::frontend::{Message, Password};
    ///
    /// assert!(Message::Password(Password(b"secret\0")).is_secret());
    /// assert!(!Message::Sync.is_secret());
    /// ```
    #[inline]
    pub fn is_secret(&self) -> bool {
        matches!(self, Message::Password(_) | Message::CancelRequest(_))
    }
}
