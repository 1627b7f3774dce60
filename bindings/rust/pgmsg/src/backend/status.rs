//! What a session reports of itself.

use crate::body::checked;
use crate::buffer::{put_answer, put_sound, Buffer};
use crate::byte_str::{ByteStr, Secret};
use crate::error::{Fault, Refusal};
use crate::list::List;
use core::fmt;
use pgmsg_core::pg_base::io::part::{Byte, Number16, Then};
use pgmsg_core::pg_receive::message::{
    self as received, NegotiateProtocolVersionRef, NotificationRef, RawKeyData, RawParameterStatus,
    ReadyForQuery,
};
use pgmsg_core::pg_server::backend::{
    OutboundBackendKeyData, OutboundMessage, OutboundNegotiateProtocolVersion,
    OutboundNotification, OutboundParameterStatus,
};

/// What a request to cancel has to name.
///
/// ```
/// use pgmsg::backend::BackendKeyData;
///
/// let key = BackendKeyData::read(b"\0\0\x04\xd2secret")?;
/// assert_eq!((key.process_id, key.secret_key.0), (1234, &b"secret"[..]));
/// # let mut out = Vec::new();
/// key.write(&mut out)?;
/// # Ok::<(), Box<dyn std::error::Error>>(())
/// ```
#[derive(Clone, Copy, Debug, Default, PartialEq, Eq)]
pub struct BackendKeyData<'a> {
    /// The process of this session.
    pub process_id: u32,
    /// The key that proves that the request comes from its client: 4 bytes in protocol 3.0, and up to 256
    /// from 3.2 on.
    pub secret_key: Secret<'a>,
}

impl<'a> BackendKeyData<'a> {
    /// Reads the body of a BackendKeyData.
    pub fn read(body: &'a [u8]) -> Result<BackendKeyData<'a>, Fault> {
        let RawKeyData { process_id, secret_key } = RawKeyData::read(checked(body)?)?;
        Ok(BackendKeyData { process_id, secret_key: Secret(secret_key) })
    }

    /// Appends the message.
    ///
    /// Refused with [`BadKeyLength`](Refusal::BadKeyLength) where the key has fewer than 4 bytes, or more
    /// than 256.
    pub fn write<B: Buffer>(&self, out: &mut B) -> Result<(), Refusal> {
        let (process_id, secret_key) = (self.process_id, self.secret_key.0);
        put_answer(&OutboundBackendKeyData { process_id, secret_key }, out)
    }
}

/// A notification from another session.
///
/// ```
/// use pgmsg::backend::NotificationResponse;
///
/// let notification = NotificationResponse::read(b"\0\0\0\x2ajobs\0new\0")?;
/// assert_eq!((notification.process_id, notification.channel), (42, "jobs".into()));
/// # let mut out = Vec::new();
/// notification.write(&mut out)?;
/// # Ok::<(), Box<dyn std::error::Error>>(())
/// ```
#[derive(Clone, Copy, Debug, Default, PartialEq, Eq)]
pub struct NotificationResponse<'a> {
    /// The process of the session that sent it.
    pub process_id: u32,
    /// The name of the channel.
    pub channel: ByteStr<'a>,
    /// What the sender passed on, empty where it passed nothing.
    pub payload: ByteStr<'a>,
}

impl<'a> NotificationResponse<'a> {
    /// Reads the body of a NotificationResponse.
    pub fn read(body: &'a [u8]) -> Result<NotificationResponse<'a>, Fault> {
        let notification = NotificationRef::read(checked(body)?)?;
        Ok(NotificationResponse {
            process_id: notification.process_id,
            channel: ByteStr(notification.channel),
            payload: ByteStr(notification.payload),
        })
    }

    /// Appends the message.
    ///
    /// Refused with [`TextHoldsNul`](Refusal::TextHoldsNul) where a text holds a NUL.
    pub fn write<B: Buffer>(&self, out: &mut B) -> Result<(), Refusal> {
        let (process_id, channel, payload) = (self.process_id, self.channel.0, self.payload.0);
        put_answer(&OutboundNotification { process_id, channel, payload }, out)
    }
}

/// A setting of the server and its value, at the start of a session and whenever it changes.
///
/// ```
/// use pgmsg::backend::ParameterStatus;
///
/// let status = ParameterStatus::read(b"TimeZone\0UTC\0")?;
/// assert_eq!((status.name, status.value), ("TimeZone".into(), "UTC".into()));
/// # let mut out = Vec::new();
/// status.write(&mut out)?;
/// # Ok::<(), Box<dyn std::error::Error>>(())
/// ```
#[derive(Clone, Copy, Debug, Default, PartialEq, Eq)]
pub struct ParameterStatus<'a> {
    /// The name of the setting.
    pub name: ByteStr<'a>,
    /// Its value.
    pub value: ByteStr<'a>,
}

impl<'a> ParameterStatus<'a> {
    /// Reads the body of a ParameterStatus.
    pub fn read(body: &'a [u8]) -> Result<ParameterStatus<'a>, Fault> {
        let RawParameterStatus { name, value } = RawParameterStatus::read(checked(body)?)?;
        Ok(ParameterStatus { name: ByteStr(name), value: ByteStr(value) })
    }

    /// Appends the message.
    ///
    /// Refused with [`TextHoldsNul`](Refusal::TextHoldsNul) where one of them holds a NUL.
    pub fn write<B: Buffer>(&self, out: &mut B) -> Result<(), Refusal> {
        put_answer(&OutboundParameterStatus { name: &self.name, value: &self.value }, out)
    }
}

/// Whether a transaction is open.
///
/// ```
/// use pgmsg::backend::TransactionStatus;
///
/// assert_eq!(TransactionStatus::read(b"T")?, TransactionStatus::InTransaction);
/// assert_eq!(TransactionStatus::Failed.letter(), b'E');
/// assert_eq!(TransactionStatus::try_from(b'E')?.to_string(), "in a failed transaction");
/// # Ok::<(), pgmsg::Fault>(())
/// ```
#[derive(Clone, Copy, Debug, PartialEq, Eq, Hash)]
#[cfg_attr(feature = "serde", derive(serde::Serialize, serde::Deserialize))]
#[non_exhaustive]
pub enum TransactionStatus {
    /// No transaction is open.
    Idle,
    /// A transaction is open.
    InTransaction,
    /// A transaction is open that has failed: the server refuses queries until its end.
    Failed,
}

impl TransactionStatus {
    /// The letter of the status in a ReadyForQuery.
    #[inline]
    pub const fn letter(self) -> u8 {
        match self {
            TransactionStatus::Idle => b'I',
            TransactionStatus::InTransaction => b'T',
            TransactionStatus::Failed => b'E',
        }
    }

    /// Reads the body of a ReadyForQuery.
    #[inline]
    pub fn read(body: &[u8]) -> Result<TransactionStatus, Fault> {
        let ReadyForQuery { transaction_status } = ReadyForQuery::read(checked(body)?)?;
        Ok(match transaction_status {
            received::TransactionStatus::Idle => TransactionStatus::Idle,
            received::TransactionStatus::Transaction => TransactionStatus::InTransaction,
            received::TransactionStatus::Error => TransactionStatus::Failed,
        })
    }

    /// Appends a ReadyForQuery.
    #[inline]
    pub(super) fn write<B: Buffer>(&self, out: &mut B) -> Result<(), Refusal> {
        put_sound(b'Z', Byte(self.letter()), Ok(()), out)
    }
}

/// By its letter.
impl TryFrom<u8> for TransactionStatus {
    type Error = Fault;

    fn try_from(letter: u8) -> Result<TransactionStatus, Fault> {
        TransactionStatus::read(&[letter])
    }
}

impl fmt::Display for TransactionStatus {
    fn fmt(&self, f: &mut fmt::Formatter<'_>) -> fmt::Result {
        f.pad(match self {
            TransactionStatus::Idle => "idle",
            TransactionStatus::InTransaction => "in a transaction",
            TransactionStatus::Failed => "in a failed transaction",
        })
    }
}

/// Which minor version of the protocol's version 3 is the newest that the server speaks, and which options
/// of the Startup it does not know.
///
/// ```
/// use pgmsg::backend::NegotiateProtocolVersion;
///
/// # let mut out = Vec::new();
/// let options = ["_pq_.option".into()].into();
/// let newest = NegotiateProtocolVersion { options, ..NegotiateProtocolVersion::default() };
/// newest.write(&mut out)?;
/// assert_eq!(NegotiateProtocolVersion::read(&out[5..])?, newest);
/// assert_eq!((newest.major, newest.minor), (3, 0));
/// # Ok::<(), Box<dyn std::error::Error>>(())
/// ```
#[derive(Clone, Debug, PartialEq, Eq)]
pub struct NegotiateProtocolVersion<'a> {
    /// The major version, which is 3, or 0 where the server sends the minor version alone.
    pub major: u16,
    /// The newest minor version.
    pub minor: u16,
    /// The names of the options.
    pub options: List<'a, ByteStr<'a>>,
}

/// Version 3.0, and no option.
impl Default for NegotiateProtocolVersion<'_> {
    fn default() -> Self {
        NegotiateProtocolVersion { major: 3, minor: 0, options: List::default() }
    }
}

impl<'a> NegotiateProtocolVersion<'a> {
    /// Reads the body of a NegotiateProtocolVersion, with or without the major version before the minor one.
    pub fn read(body: &'a [u8]) -> Result<NegotiateProtocolVersion<'a>, Fault> {
        let version = NegotiateProtocolVersionRef::read(checked(body)?)?;
        Ok(NegotiateProtocolVersion {
            major: version.major,
            minor: version.minor,
            options: List::of(version.options.len(), version.options.map(ByteStr))?,
        })
    }

    /// Appends the message.
    ///
    /// Refused with [`TextHoldsNul`](Refusal::TextHoldsNul) where a name holds a NUL.
    pub fn write<B: Buffer>(&self, out: &mut B) -> Result<(), Refusal> {
        let text =
            OutboundNegotiateProtocolVersion { minor: self.minor, options: &self.options[..] };
        // The core's own version is 3.
        let Then(Then(_, minor), options) = text.parts();
        put_sound(text.tag(), Then(Then(Number16(self.major), minor), options), Ok(()), out)
    }
}
