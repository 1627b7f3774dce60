//! What a server sends.
//!
//! [`Message`] is any of its messages. A variant has the parts of the message as a struct, where there are
//! several; these structs can be read and written alone too. What follows the parts of a body is passed
//! over: [`end`](fn@end) says where it begins. A message without a body is refused where it has one.
//!
//! A reader of many rows takes a [`RowIndex`], which needs no allocation for each, or a [`RowReader`], which
//! reads cell by cell and needs none.

mod answers;
mod authentication;
mod columns;
mod copy;
mod fields;
mod severity;
mod status;

pub use crate::row::{Cell, Row, RowIndex};
pub use answers::{rows_affected, FunctionCallResponse, Other};
pub use authentication::Authentication;
pub use columns::Column;
pub use copy::CopyResponse;
pub use fields::{Field, FieldKind, Fields};
pub use pgmsg_core::pg_receive::message::RowReader;
pub use severity::Severity;
pub use status::{
    BackendKeyData, NegotiateProtocolVersion, NotificationResponse, ParameterStatus,
    TransactionStatus,
};

use crate::body::checked;
use crate::buffer::{put_answer, Buffer};
use crate::byte_str::ByteStr;
use crate::error::{Fault, Refusal};
use crate::frame::Frame;
use crate::frontend::read_data;
use crate::list::List;
use crate::message::{messages, put_nothing, read_nothing};
use crate::owned::{owned, Kept};
use crate::value::Value;
use crate::Oid;
use answers::read_other;
use pgmsg_core::pg_base::{BackendMessageFormat, ProtocolFault};
use pgmsg_core::pg_receive::message::body_end;
use pgmsg_core::pg_server::backend::{
    CopyDirection, NoticeKind, OutboundCommandComplete, OutboundCopyData, OutboundDataRow,
    OutboundParameterDescription,
};

/// The offset after the last part of a body, by the tag of its message: `body.len()` where nothing
/// follows the parts that the documentation lists.
///
/// A body is refused where a part can't be read or a list has no end. Texts are any bytes, and data
/// of a SASL exchange isn't looked at.
///
/// ```
/// # use pgmsg::backend::end;
/// assert_eq!(end(b'Z', b"I")?, 1);
/// assert_eq!(end(b'Z', b"I!")?, 1);
/// assert!(end(b'E', b"VERROR\0").is_err());
/// # Ok::<(), pgmsg::Fault>(())
/// ```
#[inline]
pub fn end(tag: u8, body: &[u8]) -> Result<usize, Fault> {
    let kind = BackendMessageFormat::try_from_u8(tag);
    let kind = kind.map_err(|_| ProtocolFault::UnknownMessageType(tag))?;
    Ok(body_end(kind, checked(body)?)?)
}

messages! {
    /// A message from a server.
    ///
    /// ```
    /// use pgmsg::backend::{Column, Message, TransactionStatus};
    /// use pgmsg::{Decoder, Next, Value};
    ///
    /// let messages = [
    ///     Message::RowDescription([Column::new("id", 23), Column::new("name", 25)].into()),
    ///     Message::DataRow(["1".into(), Value::NULL].into()),
    ///     Message::CommandComplete("SELECT 1".into()),
    ///     Message::ReadyForQuery(TransactionStatus::Idle),
    /// ];
    /// let mut stream = Vec::new();
    /// for message in &messages {
    ///     message.write(&mut stream)?;
    /// }
    ///
    /// let (mut decoder, mut rest, mut read) = (Decoder::of_server(), &stream[..], Vec::new());
    /// while let Next::Frame(frame) = decoder.next(rest)? {
    ///     read.push(Message::read(&frame)?);
    ///     rest = &rest[frame.bytes.len()..];
    /// }
    /// assert_eq!(read, messages);
    /// assert_eq!((read[1].tag(), read[1].name()), (Some(b'D'), "DataRow"));
    /// assert_eq!(format!("{:?}", read[1]), r#"DataRow([b"1", NULL])"#);
    /// # Ok::<(), Box<dyn std::error::Error>>(())
    /// ```
    read by read_other {
        /// A message of another tag, by its body.
        Other(other: Other<'a>) = Some(other.tag), Other::write;
    }
    read by tag {
        /// What the server asks of a client that opens a session, or that it accepts the client.
        Authentication(authentication: Authentication<'a>) = b'R', Authentication::read, Authentication::write;
        /// What a request to cancel has to name.
        BackendKeyData(key: BackendKeyData<'a>) = b'K', BackendKeyData::read, BackendKeyData::write;
        /// A Bind succeeded.
        BindComplete = b'2';
        /// A Close succeeded.
        CloseComplete = b'3';
        /// A command succeeded: its tag, such as `INSERT 0 1`, of which [`rows_affected`] has the number.
        CommandComplete(command: ByteStr<'a>) = b'C', answers::read_command, put_answer(&OutboundCommandComplete { command });
        /// Data of a COPY.
        CopyData(data: ByteStr<'a>) = b'd', read_data, put_answer(&OutboundCopyData(data));
        /// The end of the data of a COPY.
        CopyDone = b'c';
        /// The server waits for the data of a COPY.
        CopyInResponse(copy: CopyResponse<'a>) = b'G', CopyResponse::read, copy::write(CopyDirection::In, copy);
        /// The data of a COPY follows.
        CopyOutResponse(copy: CopyResponse<'a>) = b'H', CopyResponse::read, copy::write(CopyDirection::Out, copy);
        /// A COPY both ways begins, as in replication.
        CopyBothResponse(copy: CopyResponse<'a>) = b'W', CopyResponse::read, copy::write(CopyDirection::Both, copy);
        /// A row of a result.
        DataRow(values: List<'a, Value<'a>>) = b'D', crate::row::read, put_answer(&OutboundDataRow { values });
        /// A query without a statement succeeded.
        EmptyQueryResponse = b'I';
        /// An error.
        ErrorResponse(fields: Fields<'a>) = b'E', Fields::read, fields::write(NoticeKind::Error, fields);
        /// The result of a function that was called.
        FunctionCallResponse(response: FunctionCallResponse<'a>) = b'V', FunctionCallResponse::read, FunctionCallResponse::write;
        /// The newest version of the protocol that the server speaks.
        NegotiateProtocolVersion(version: NegotiateProtocolVersion<'a>) = b'v', NegotiateProtocolVersion::read, NegotiateProtocolVersion::write;
        /// A statement or a portal has no rows to describe.
        NoData = b'n';
        /// A notice.
        NoticeResponse(fields: Fields<'a>) = b'N', Fields::read, fields::write(NoticeKind::Notice, fields);
        /// A notification from another session.
        NotificationResponse(notification: NotificationResponse<'a>) = b'A', NotificationResponse::read, NotificationResponse::write;
        /// The object ids of the types of a statement's parameters.
        ParameterDescription(types: List<'a, Oid>) = b't', columns::read_types, put_answer(&OutboundParameterDescription { types });
        /// A setting of the server and its value.
        ParameterStatus(status: ParameterStatus<'a>) = b'S', ParameterStatus::read, ParameterStatus::write;
        /// A Parse succeeded.
        ParseComplete = b'1';
        /// An Execute reached its limit of rows.
        PortalSuspended = b's';
        /// The server is ready for the next query.
        ReadyForQuery(status: TransactionStatus) = b'Z', TransactionStatus::read, TransactionStatus::write;
        /// The columns of a result.
        RowDescription(columns: List<'a, Column<'a>>) = b'T', columns::read, columns::write;
    }
}

owned! {
    /// A message from a server that owns its bytes: it is `'static` and `Send`.
    ///
    /// ```
    /// use pgmsg::backend::{Message, OwnedMessage};
    /// use pgmsg::Decoder;
    ///
    /// let mut decoder = Decoder::of_server();
    /// let frame = decoder.next(b"C\0\0\0\x0dSELECT 1\0")?.frame().ok_or("a whole message")?;
    /// let done = OwnedMessage::read(&frame)?;
    /// let other = std::thread::spawn(move || match done.message() {
    ///     Message::CommandComplete(tag) => tag.to_str_lossy().into_owned(),
    ///     other => panic!("{other:?}"),
    /// });
    /// assert_eq!(other.join().ok(), Some("SELECT 1".to_string()));
    /// # Ok::<(), Box<dyn std::error::Error>>(())
    /// ```
}

impl Message<'_> {
    /// Whether the message belongs to a secret, and should not be logged: data of an exchange by SASL or
    /// GSSAPI, or the key of a BackendKeyData. [`Debug`](core::fmt::Debug) leaves it out.
    ///
    /// ```
    /// use pgmsg::backend::{Authentication, Message, TransactionStatus};
    ///
    /// assert!(Message::Authentication(Authentication::SaslFinal("v=..".into())).is_secret());
    /// assert!(!Message::ReadyForQuery(TransactionStatus::Idle).is_secret());
    /// ```
    pub fn is_secret(&self) -> bool {
        match self {
            Message::Authentication(authentication) => authentication.is_secret(),
            message => matches!(message, Message::BackendKeyData(_)),
        }
    }
}
