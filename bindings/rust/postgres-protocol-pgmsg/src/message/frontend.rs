//! Messages to the server. Each call appends one to a buffer.

mod bind;

pub use bind::bind;
pub use original::message::frontend::BindError;

use crate::lacking::{refused, with_list};
use crate::Oid;
use bytes::{Buf, BufMut, BytesMut};
use pgmsg::frontend::{
    copy_head, CancelRequest, Execute, Message, Parse, Password, PasswordMessage,
    SaslInitialResponse, Startup, Target,
};
use pgmsg::Refusal;
use std::io;

/// Takes a message that is always the same, or of numbers alone, which nothing refuses.
#[inline]
fn surely(appended: Result<(), Refusal>) {
    appended.expect("a message of a few bytes");
}

/// Asks the server to stop what a session does: CancelRequest.
#[inline]
pub fn cancel_request(process_id: i32, secret_key: i32, buf: &mut BytesMut) {
    let key = secret_key.to_be_bytes();
    let cancel = CancelRequest { process_id: process_id as u32, secret_key: (&key).into() };
    surely(cancel.write(buf));
}

/// Closes a statement, by the variant `S`, or a portal, by `P`: Close.
#[inline]
pub fn close(variant: u8, name: &str, buf: &mut BytesMut) -> io::Result<()> {
    Ok(Message::Close(target(variant, name)?).write(buf)?)
}

/// Data of a COPY, which is copied once, to where it is sent from.
pub struct CopyData<T> {
    head: [u8; 5],
    data: T,
}

impl<T: Buf> CopyData<T> {
    /// Takes the data, which is refused where no message can be as long.
    #[inline]
    pub fn new(buf: T) -> io::Result<CopyData<T>> {
        Ok(CopyData { head: copy_head(buf.remaining())?, data: buf })
    }

    /// Appends the message: CopyData.
    #[inline]
    pub fn write(self, out: &mut BytesMut) {
        out.reserve(self.head.len() + self.data.remaining());
        out.put_slice(&self.head);
        out.put(self.data);
    }
}

/// Ends the data of a COPY: CopyDone.
#[inline]
pub fn copy_done(buf: &mut BytesMut) {
    surely(Message::CopyDone.write(buf));
}

/// Makes a COPY fail, for this reason: CopyFail.
#[inline]
pub fn copy_fail(message: &str, buf: &mut BytesMut) -> io::Result<()> {
    Ok(Message::CopyFail(message.into()).write(buf)?)
}

/// Describes a statement, by the variant `S`, or a portal, by `P`: Describe.
#[inline]
pub fn describe(variant: u8, name: &str, buf: &mut BytesMut) -> io::Result<()> {
    Ok(Message::Describe(target(variant, name)?).write(buf)?)
}

/// The statement or the portal of a name.
fn target(variant: u8, name: &str) -> io::Result<Target<'_>> {
    match variant {
        b'S' => Ok(Target::Statement(name.into())),
        b'P' => Ok(Target::Portal(name.into())),
        _ => Err(refused("neither a statement nor a portal is named")),
    }
}

/// Runs a portal, up to so many rows, or to the last one where that is 0: Execute.
#[inline]
pub fn execute(portal: &str, max_rows: i32, buf: &mut BytesMut) -> io::Result<()> {
    let (portal, max_rows) = (portal.into(), max_rows as u32);
    Ok(Execute { portal, max_rows }.write(buf)?)
}

/// Prepares a statement: Parse.
#[inline]
pub fn parse<I>(name: &str, query: &str, param_types: I, buf: &mut BytesMut) -> io::Result<()>
where
    I: IntoIterator<Item = Oid>,
{
    let (statement, query) = (name.into(), query.into());
    let put = |types: &[Oid]| Parse { statement, query, types: types.into() }.write(buf);
    Ok(with_list(param_types, put)?)
}

/// Sends a password, or the digest of one: PasswordMessage.
#[inline]
pub fn password_message(password: &[u8], buf: &mut BytesMut) -> io::Result<()> {
    Ok(PasswordMessage(password.into()).write(buf)?)
}

/// Runs the statements of a text: Query.
#[inline]
pub fn query(query: &str, buf: &mut BytesMut) -> io::Result<()> {
    Ok(Message::Query(query.into()).write(buf)?)
}

/// Chooses a mechanism of SASL, with its first message: SASLInitialResponse.
#[inline]
pub fn sasl_initial_response(mechanism: &str, data: &[u8], buf: &mut BytesMut) -> io::Result<()> {
    let initial = SaslInitialResponse { mechanism: mechanism.into(), response: Some(data.into()) };
    Ok(initial.write(buf)?)
}

/// Answers a challenge of a SASL exchange: SASLResponse.
#[inline]
pub fn sasl_response(data: &[u8], buf: &mut BytesMut) -> io::Result<()> {
    Ok(Password(data).write(buf)?)
}

/// Asks for an encrypted connection: SSLRequest.
#[inline]
pub fn ssl_request(buf: &mut BytesMut) {
    surely(Message::SslRequest.write(buf));
}

/// Opens a session with these settings, names with values: StartupMessage.
#[inline]
pub fn startup_message<'a, I>(parameters: I, buf: &mut BytesMut) -> io::Result<()>
where
    I: IntoIterator<Item = (&'a str, &'a str)>,
{
    let settings: Vec<_> = parameters.into_iter().collect();
    Ok(Startup::new(&settings).write(buf)?)
}

/// Ends a run of messages: Sync.
#[inline]
pub fn sync(buf: &mut BytesMut) {
    surely(Message::Sync.write(buf));
}

/// Ends the session: Terminate.
#[inline]
pub fn terminate(buf: &mut BytesMut) {
    surely(Message::Terminate.write(buf));
}
