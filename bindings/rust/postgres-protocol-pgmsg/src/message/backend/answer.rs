//! A message by its tag.

use super::*;
use crate::lacking::{ends, refused};
use bytes::Bytes;
use pgmsg::backend;

/// Takes a message of so many bytes off a stream.
///
/// The messages that come most often are read here, each where it is returned, and the others by a
/// call.
#[inline(always)]
pub(super) fn take(tag: u8, length: usize, buf: &mut BytesMut) -> io::Result<Option<Message>> {
    Ok(Some(match tag {
        DATA_ROW_TAG => Message::DataRow(DataRowBody::read(body(buf, length))?),
        COPY_DATA_TAG => Message::CopyData(CopyDataBody::read(body(buf, length))?),
        COMMAND_COMPLETE_TAG => {
            Message::CommandComplete(CommandCompleteBody::read(body(buf, length))?)
        }
        NOTIFICATION_RESPONSE_TAG => {
            Message::NotificationResponse(NotificationResponseBody::read(body(buf, length))?)
        }
        READY_FOR_QUERY_TAG => Message::ReadyForQuery(pass(buf, length, ReadyForQueryBody::read)?),
        BIND_COMPLETE_TAG => {
            pass(buf, length, |body| ends(BIND_COMPLETE_TAG, body))?;
            Message::BindComplete
        }
        PARSE_COMPLETE_TAG => {
            pass(buf, length, |body| ends(PARSE_COMPLETE_TAG, body))?;
            Message::ParseComplete
        }
        _ => return read(tag, body(buf, length)).map(Some),
    }))
}

/// Takes a message of so many bytes off a stream, and gives its body.
#[inline(always)]
fn body(buf: &mut BytesMut, length: usize) -> Bytes {
    let mut body = buf.split_to(length).freeze();
    body.advance(HEAD);
    body
}

/// Takes a message of so many bytes off a stream, and gives what is read of its body, of which nothing
/// is kept.
#[inline]
fn pass<T>(buf: &mut BytesMut, length: usize, read: fn(&[u8]) -> io::Result<T>) -> io::Result<T> {
    let read = read(buf.get(HEAD..length).unwrap_or_default());
    buf.advance(length);
    read
}

/// Reads the body of a message of any other tag.
#[cold]
fn read(tag: u8, body: Bytes) -> io::Result<Message> {
    Ok(match tag {
        AUTHENTICATION_TAG => return authentication::read(body),
        BACKEND_KEY_DATA_TAG => Message::BackendKeyData(BackendKeyDataBody::read(&body)?),
        COPY_IN_RESPONSE_TAG => Message::CopyInResponse(CopyInResponseBody::read(body)?),
        COPY_OUT_RESPONSE_TAG => Message::CopyOutResponse(CopyOutResponseBody::read(body)?),
        ERROR_RESPONSE_TAG => Message::ErrorResponse(ErrorResponseBody::read(body)?),
        NOTICE_RESPONSE_TAG => Message::NoticeResponse(NoticeResponseBody::read(body)?),
        PARAMETER_DESCRIPTION_TAG => {
            Message::ParameterDescription(ParameterDescriptionBody::read(body)?)
        }
        PARAMETER_STATUS_TAG => Message::ParameterStatus(ParameterStatusBody::read(body)?),
        ROW_DESCRIPTION_TAG => Message::RowDescription(RowDescriptionBody::read(body)?),
        _ => match backend::Message::read_body(Some(tag), &body)? {
            backend::Message::CloseComplete => Message::CloseComplete,
            backend::Message::CopyDone => Message::CopyDone,
            backend::Message::EmptyQueryResponse => Message::EmptyQueryResponse,
            backend::Message::NoData => Message::NoData,
            backend::Message::PortalSuspended => Message::PortalSuspended,
            _ => return Err(refused("message of a kind that isn't known")),
        },
    })
}
