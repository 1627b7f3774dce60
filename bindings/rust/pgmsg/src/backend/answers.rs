//! The answers that are a word, a value or nothing, and those that aren't known here.

use super::Message;
use crate::body::checked;
use crate::buffer::{put_answer, Buffer};
use crate::byte_str::ByteStr;
use crate::error::{Fault, Refusal};
use crate::value::Value;
use pgmsg_core::pg_receive::message::{self as received, command_tag, FunctionCallResponseRef};
use pgmsg_core::pg_server::backend::{OutboundFunctionCallResponse, OutboundRaw};

/// Reads the text of a command's tag, without its NUL.
#[inline]
pub(super) fn read_command(body: &[u8]) -> Result<ByteStr<'_>, Fault> {
    Ok(ByteStr(command_tag(checked(body)?)?))
}

/// The number of rows that a command returned or changed, by its tag: the number after the last space, or 0 where
/// there is none.
///
/// ```
/// # use pgmsg::backend::rows_affected;
/// assert_eq!(rows_affected(b"INSERT 0 3"), 3);
/// assert_eq!(rows_affected(b"CREATE TABLE"), 0);
/// ```
#[inline]
pub fn rows_affected(tag: &[u8]) -> u64 {
    received::rows_affected(tag)
}

/// The result of a function that was called, or NULL.
///
/// ```
/// use pgmsg::backend::FunctionCallResponse;
///
/// # let mut out = Vec::new();
/// FunctionCallResponse("5".into()).write(&mut out)?;
/// assert_eq!(out, b"V\0\0\0\x09\0\0\0\x015");
/// assert_eq!(FunctionCallResponse::read(&out[5..])?.0.bytes(), Some(&b"5"[..]));
/// # Ok::<(), Box<dyn std::error::Error>>(())
/// ```
#[derive(Clone, Copy, Debug, PartialEq, Eq)]
pub struct FunctionCallResponse<'a>(pub Value<'a>);

impl<'a> FunctionCallResponse<'a> {
    /// Reads the body of a FunctionCallResponse.
    pub fn read(body: &'a [u8]) -> Result<FunctionCallResponse<'a>, Fault> {
        let response = FunctionCallResponseRef::read(checked(body)?)?;
        Ok(FunctionCallResponse(response.value.into()))
    }

    /// Appends the message.
    ///
    /// Refused with [`MessageTooLong`](Refusal::MessageTooLong) above 2147483639 bytes.
    pub fn write<B: Buffer>(&self, out: &mut B) -> Result<(), Refusal> {
        put_answer(&OutboundFunctionCallResponse { value: self.0.bytes() }, out)
    }
}

/// A message with any tag and any body.
///
/// ```
/// # let mut out = Vec::new();
/// pgmsg::backend::Other { tag: b'v', body: "!".into() }.write(&mut out)?;
/// assert_eq!(out, b"v\0\0\0\x05!");
/// # Ok::<(), pgmsg::Refusal>(())
/// ```
#[derive(Clone, Copy, Debug, PartialEq, Eq)]
pub struct Other<'a> {
    /// Its tag.
    pub tag: u8,
    /// The bytes after its length.
    pub body: ByteStr<'a>,
}

impl Other<'_> {
    /// Appends the message.
    pub fn write<B: Buffer>(&self, out: &mut B) -> Result<(), Refusal> {
        put_answer(&OutboundRaw { tag: self.tag, body: &self.body }, out)
    }
}

/// Takes the body of a message of another tag.
pub(super) fn read_other(tag: Option<u8>, body: &[u8]) -> Result<Message<'_>, Fault> {
    match tag {
        Some(tag) => Ok(Message::Other(Other { tag, body: ByteStr(body) })),
        None => Err(Fault {
            words: "message without a tag".into(),
            ..Refusal::UnknownMessageType.into()
        }),
    }
}
