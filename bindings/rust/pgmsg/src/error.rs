//! Why a call fails.

use alloc::string::{String, ToString};
use core::fmt;
use pgmsg_core::pg_base::ProtocolFault;
use pgmsg_core::pg_frames::relay::RelayError;
use pgmsg_core::pg_server::frontend::FrontendFault;

/// Makes the enum of refusals by a table of their words.
macro_rules! refusals {
    ($($(#[$doc:meta])* $name:ident = $words:literal;)*) => {
        /// Why a message is refused.
        #[derive(Clone, Copy, Debug, PartialEq, Eq, Hash)]
        #[cfg_attr(feature = "serde", derive(serde::Serialize, serde::Deserialize))]
        #[non_exhaustive]
        pub enum Refusal {
            $($(#[$doc])* $name,)*
        }

        impl fmt::Display for Refusal {
            fn fmt(&self, f: &mut fmt::Formatter<'_>) -> fmt::Result {
                f.write_str(match self {
                    $(Refusal::$name => $words,)*
                })
            }
        }
    };
}

refusals! {
    /// An allocation failed.
    OutOfMemory = "out of memory";
    /// More formats of parameters than a message can count.
    TooManyParamFormats = "too many formats of parameters";
    /// More formats of results than a message can count.
    TooManyResultFormats = "too many formats of results";
    /// More types of parameters than a message can count.
    TooManyParamTypes = "too many types of parameters";
    /// The message is longer than its length field can say.
    MessageTooLong = "message is too long for the protocol";
    /// The message was read as one of another kind.
    WrongFormat = "message is of another kind";
    /// The received body is longer than a length field can say.
    BodyTooLong = "message body is too long for the protocol";
    /// No message that is known here, from a server or from a client, has this tag, or none of replication has
    /// this letter.
    UnknownMessageType = "unknown message type";
    /// The server asks for a method of authentication that is not supported.
    UnknownAuthentication = "unsupported method of authentication";
    /// No transaction status has this letter.
    UnknownStatus = "unknown transaction status";
    /// No severity has this word or this level.
    UnknownSeverity = "unknown severity";
    /// The body has fewer bytes than are needed.
    Short = "message body is too short";
    /// A text has no NUL at its end.
    MissingNul = "text has no NUL at its end";
    /// A text is not UTF-8.
    NotUtf8 = "text is not UTF-8";
    /// A text of an error or a notice is not UTF-8.
    NoticeNotUtf8 = "text of an error or a notice is not UTF-8";
    /// An item of SASL data has no room for a key and its separator.
    ShortSaslItem = "SASL item has fewer than two bytes";
    /// A value of SASL data is not base64.
    Base64 = "SASL value is not base64";
    /// The length of the message is below 4, or that of a client's first message below 8.
    BadLength = "message length is too small";
    /// A text to be sent holds a NUL, where the server would end it, or the name of a setting is empty.
    TextHoldsNul = "text holds a NUL";
    /// The values of a Bind cannot be counted.
    BadParams = "too many values for a Bind";
    /// The secret key of a session has fewer than 4 or more than 256 bytes.
    BadKeyLength = "secret key of fewer than 4 or more than 256 bytes";
    /// No first message has this code.
    UnknownCode = "unknown code of a first message";
    /// A Describe or a Close names neither a statement nor a portal.
    UnknownTarget = "neither a statement nor a portal";
    /// A value has a length below -1, which says NULL.
    BadValueLength = "value length is below -1";
    /// Bytes follow the end of a message.
    TrailingBytes = "bytes follow the end of a message";
    /// A first message is longer than the caller takes.
    FirstTooLong = "first message is too long";
    /// More items than a message to a client can count.
    TooMany = "more items than can be counted";
    /// What is to be added to a stream is no run of whole messages.
    NotFrames = "not a run of whole messages";
    /// A message that is wanted whole is longer than the caller takes.
    FrameTooLong = "message is longer than is taken whole";
    /// No row and no value of logical replication has this letter.
    UnknownLetter = "unknown letter of a row or a value";
}

impl From<ProtocolFault> for Refusal {
    #[cold]
    fn from(fault: ProtocolFault) -> Refusal {
        match fault {
            ProtocolFault::TooManyParamFormats(_) => Refusal::TooManyParamFormats,
            ProtocolFault::TooManyResultFormats(_) => Refusal::TooManyResultFormats,
            ProtocolFault::TooManyParamTypes(_) => Refusal::TooManyParamTypes,
            ProtocolFault::TooMany(_) => Refusal::TooMany,
            ProtocolFault::MessageTooLong(_) => Refusal::MessageTooLong,
            ProtocolFault::WrongFormat { .. } => Refusal::WrongFormat,
            ProtocolFault::BodyTooLong(_) => Refusal::BodyTooLong,
            ProtocolFault::UnknownMessageType(_) => Refusal::UnknownMessageType,
            ProtocolFault::UnknownLetter(_) => Refusal::UnknownLetter,
            ProtocolFault::UnknownAuthentication(_) => Refusal::UnknownAuthentication,
            ProtocolFault::UnknownStatus(_) => Refusal::UnknownStatus,
            ProtocolFault::UnknownSeverity => Refusal::UnknownSeverity,
            ProtocolFault::Short { .. } => Refusal::Short,
            ProtocolFault::MissingNul { .. } => Refusal::MissingNul,
            ProtocolFault::NotUtf8 => Refusal::NotUtf8,
            ProtocolFault::NoticeNotUtf8 => Refusal::NoticeNotUtf8,
            ProtocolFault::ShortSaslItem => Refusal::ShortSaslItem,
            ProtocolFault::Base64 => Refusal::Base64,
            ProtocolFault::BadLength(_) => Refusal::BadLength,
            ProtocolFault::TextHoldsNul => Refusal::TextHoldsNul,
            ProtocolFault::BadParams => Refusal::BadParams,
            ProtocolFault::BadKeyLength(_) => Refusal::BadKeyLength,
            ProtocolFault::UnknownCode(_) => Refusal::UnknownCode,
            ProtocolFault::ValueLength { .. } => Refusal::BadValueLength,
            ProtocolFault::TrailingBytes { .. } => Refusal::TrailingBytes,
        }
    }
}

/// What is wrong with bytes that were read.
///
/// ```
/// use pgmsg::{backend::BackendKeyData, Refusal};
///
/// let fault = BackendKeyData::read(b"\0\0\0").unwrap_err();
/// assert_eq!((fault.refusal, fault.at), (Refusal::Short, 0));
/// assert_eq!(fault.to_string(), "expected 4 bytes at offset 0, got 3");
/// ```
#[derive(Clone, Debug, PartialEq, Eq)]
#[cfg_attr(feature = "serde", derive(serde::Serialize, serde::Deserialize))]
#[non_exhaustive]
pub struct Fault {
    /// The class of the fault.
    pub refusal: Refusal,
    /// The offset of the fault in the bytes that were read, 0 where it has none.
    pub at: usize,
    /// A description in ASCII, where there is more to say than the class does.
    pub words: String,
}

impl From<Refusal> for Fault {
    fn from(refusal: Refusal) -> Fault {
        Fault { refusal, at: 0, words: String::new() }
    }
}

impl From<ProtocolFault> for Fault {
    #[cold]
    fn from(fault: ProtocolFault) -> Fault {
        let at = match fault {
            ProtocolFault::Short { at, .. }
            | ProtocolFault::MissingNul { at }
            | ProtocolFault::ValueLength { at, .. }
            | ProtocolFault::TrailingBytes { at } => at,
            _ => 0,
        };
        Fault { refusal: fault.into(), at, words: fault.to_string() }
    }
}

impl From<FrontendFault> for Fault {
    #[cold]
    fn from(fault: FrontendFault) -> Fault {
        let (refusal, at) = match fault {
            FrontendFault::UnknownTag(_) => (Refusal::UnknownMessageType, 0),
            FrontendFault::UnknownCode(_) => (Refusal::UnknownCode, 0),
            FrontendFault::UnknownTarget(_) => (Refusal::UnknownTarget, 0),
            FrontendFault::Short { at, .. } => (Refusal::Short, at),
            FrontendFault::MissingNul { at } => (Refusal::MissingNul, at),
            FrontendFault::ValueLength { at, .. } => (Refusal::BadValueLength, at),
            FrontendFault::KeyLength(_) => (Refusal::BadKeyLength, 0),
            FrontendFault::TrailingBytes { at } => (Refusal::TrailingBytes, at),
            FrontendFault::BadLength(_) => (Refusal::BadLength, 0),
            FrontendFault::FirstTooLong { .. } => (Refusal::FirstTooLong, 0),
        };
        Fault { refusal, at, words: fault.to_string() }
    }
}

impl From<RelayError> for Fault {
    #[cold]
    fn from(error: RelayError) -> Fault {
        let refusal = match error {
            RelayError::BadLength(_) => Refusal::BadLength,
            RelayError::TooLong { .. } => Refusal::FrameTooLong,
            RelayError::NotFrames => Refusal::NotFrames,
            RelayError::OutOfMemory => Refusal::OutOfMemory,
        };
        Fault { refusal, at: 0, words: error.to_string() }
    }
}

impl fmt::Display for Fault {
    fn fmt(&self, f: &mut fmt::Formatter<'_>) -> fmt::Result {
        if self.words.is_empty() {
            self.refusal.fmt(f)
        } else {
            f.write_str(&self.words)
        }
    }
}

impl core::error::Error for Refusal {}

/// Its source is the class of the fault, where it has words of its own.
impl core::error::Error for Fault {
    fn source(&self) -> Option<&(dyn core::error::Error + 'static)> {
        Some(&self.refusal as _).filter(|_| !self.words.is_empty())
    }
}

/// The two as errors of input and output.
#[cfg(feature = "std")]
mod io_errors {
    use super::{Fault, Refusal};
    use std::io;

    /// An error of the kind `OutOfMemory` where the refusal is for memory, else `InvalidInput`.
    impl From<Refusal> for io::Error {
        fn from(refusal: Refusal) -> io::Error {
            io::Error::new(kind_of(refusal, io::ErrorKind::InvalidInput), refusal)
        }
    }

    /// An error of the kind `OutOfMemory` where the refusal is for memory, else `InvalidData`.
    impl From<Fault> for io::Error {
        fn from(fault: Fault) -> io::Error {
            io::Error::new(kind_of(fault.refusal, io::ErrorKind::InvalidData), fault)
        }
    }

    fn kind_of(refusal: Refusal, other: io::ErrorKind) -> io::ErrorKind {
        match refusal {
            Refusal::OutOfMemory => io::ErrorKind::OutOfMemory,
            _ => other,
        }
    }
}

#[cfg(test)]
mod tests {
    use super::*;
    use core::error::Error;
    use std::io;

    #[test]
    fn a_refusal_for_memory_is_an_error_of_that_kind() {
        assert_eq!(io::Error::from(Refusal::OutOfMemory).kind(), io::ErrorKind::OutOfMemory);
        assert!(Fault::from(Refusal::Short).source().is_none());
    }

    #[test]
    fn the_source_of_a_fault_is_its_class() {
        let fault = Fault::from(ProtocolFault::MissingNul { at: 7 });
        assert_eq!((fault.at, fault.to_string()), (7, "expected NUL after offset 7".into()));
        let source = fault.source().expect("a source");
        assert_eq!(source.to_string(), "text has no NUL at its end");
    }
}
