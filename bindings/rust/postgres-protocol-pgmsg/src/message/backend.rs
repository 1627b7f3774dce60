//! Messages from the server.

mod answer;
mod authentication;
mod body;
mod copy;
mod description;
mod fields;
mod items;
mod row;
mod status;

pub use authentication::{
    AuthenticationGssContinueBody, AuthenticationMd5PasswordBody, AuthenticationSaslBody,
    AuthenticationSaslContinueBody, AuthenticationSaslFinalBody, SaslMechanisms,
};
pub use copy::{ColumnFormats, CopyDataBody, CopyInResponseBody, CopyOutResponseBody};
pub use description::{Field, Fields, ParameterDescriptionBody, Parameters, RowDescriptionBody};
pub use fields::{ErrorField, ErrorFields, ErrorResponseBody, NoticeResponseBody};
pub use row::{DataRowBody, DataRowRanges};
pub use status::{
    BackendKeyDataBody, CommandCompleteBody, NotificationResponseBody, ParameterStatusBody,
    ReadyForQueryBody,
};

pub use original::message::backend::{
    Header, AUTHENTICATION_TAG, BACKEND_KEY_DATA_TAG, BIND_COMPLETE_TAG, CLOSE_COMPLETE_TAG,
    COMMAND_COMPLETE_TAG, COPY_DATA_TAG, COPY_DONE_TAG, COPY_IN_RESPONSE_TAG,
    COPY_OUT_RESPONSE_TAG, DATA_ROW_TAG, EMPTY_QUERY_RESPONSE_TAG, ERROR_RESPONSE_TAG,
    NOTICE_RESPONSE_TAG, NOTIFICATION_RESPONSE_TAG, NO_DATA_TAG, PARAMETER_DESCRIPTION_TAG,
    PARAMETER_STATUS_TAG, PARSE_COMPLETE_TAG, PORTAL_SUSPENDED_TAG, READY_FOR_QUERY_TAG,
    ROW_DESCRIPTION_TAG,
};

use crate::lacking::HEAD;
use bytes::{Buf, BytesMut};
use pgmsg::{Decoder, Next};
use std::io;

/// The most room that is made at once for a message that isn't whole: a server can announce 2 GiB.
const MOST_GROWTH: usize = 1 << 20;

/// A message from the server.
#[allow(missing_docs)]
#[non_exhaustive]
pub enum Message {
    AuthenticationCleartextPassword,
    AuthenticationGss,
    AuthenticationKerberosV5,
    AuthenticationMd5Password(AuthenticationMd5PasswordBody),
    AuthenticationOk,
    AuthenticationScmCredential,
    AuthenticationSspi,
    AuthenticationGssContinue(AuthenticationGssContinueBody),
    AuthenticationSasl(AuthenticationSaslBody),
    AuthenticationSaslContinue(AuthenticationSaslContinueBody),
    AuthenticationSaslFinal(AuthenticationSaslFinalBody),
    BackendKeyData(BackendKeyDataBody),
    BindComplete,
    CloseComplete,
    CommandComplete(CommandCompleteBody),
    CopyData(CopyDataBody),
    CopyDone,
    CopyInResponse(CopyInResponseBody),
    CopyOutResponse(CopyOutResponseBody),
    DataRow(DataRowBody),
    EmptyQueryResponse,
    ErrorResponse(ErrorResponseBody),
    NoData,
    NoticeResponse(NoticeResponseBody),
    NotificationResponse(NotificationResponseBody),
    ParameterDescription(ParameterDescriptionBody),
    ParameterStatus(ParameterStatusBody),
    ParseComplete,
    PortalSuspended,
    ReadyForQuery(ReadyForQueryBody),
    RowDescription(RowDescriptionBody),
}

impl Message {
    /// Takes the first message off a stream. `None` where it isn't whole: then there is more room
    /// for it, where its length is there.
    #[inline]
    pub fn parse(buf: &mut BytesMut) -> io::Result<Option<Message>> {
        match Decoder::of_server().next(buf) {
            Ok(Next::Frame(frame)) => {
                let (tag, length) = (frame.bytes[0], frame.bytes.len());
                answer::take(tag, length, buf)
            }
            Ok(Next::Incomplete { needed: HEAD, .. }) => Ok(None),
            Ok(Next::Incomplete { needed, .. }) => Ok(make_room(buf, needed)),
            Err(fault) => Err(fault.into()),
        }
    }
}

/// Makes room for some of a message that isn't whole.
#[cold]
fn make_room(buf: &mut BytesMut, needed: usize) -> Option<Message> {
    buf.reserve(needed.saturating_sub(buf.len()).min(MOST_GROWTH));
    None
}
