//! Messages that own their bytes.

use crate::frame::Frame;
use alloc::boxed::Box;

/// The tag and the body of a message.
#[derive(Clone, PartialEq, Eq, Hash)]
#[cfg_attr(feature = "serde", derive(serde::Serialize, serde::Deserialize))]
pub(crate) struct Kept {
    pub(crate) tag: Option<u8>,
    pub(crate) body: Box<[u8]>,
}

impl From<&Frame<'_>> for Kept {
    fn from(frame: &Frame<'_>) -> Kept {
        Kept { tag: frame.tag, body: frame.body().into() }
    }
}

/// Makes the owned form of a side's messages.
macro_rules! owned {
    ($(#[$doc:meta])*) => {
        $(#[$doc])*
        #[derive(Clone, PartialEq, Eq, Hash)]
        #[cfg_attr(feature = "serde", derive(serde::Serialize, serde::Deserialize))]
        #[cfg_attr(feature = "serde", serde(try_from = "Kept", into = "Kept"))]
        pub struct OwnedMessage(Kept);

        impl OwnedMessage {
            /// Reads a message that was cut off a stream, and copies it.
            pub fn read(frame: &Frame<'_>) -> Result<OwnedMessage, Fault> {
                Kept::from(frame).try_into()
            }

            /// The message, which borrows the bytes of this one.
            pub fn message(&self) -> Message<'_> {
                let read = Message::read_body(self.0.tag, &self.0.body);
                read.expect("a body that was read before")
            }
        }

        impl TryFrom<Kept> for OwnedMessage {
            type Error = Fault;

            fn try_from(kept: Kept) -> Result<OwnedMessage, Fault> {
                Message::read_body(kept.tag, &kept.body)?;
                Ok(OwnedMessage(kept))
            }
        }

        impl From<OwnedMessage> for Kept {
            fn from(message: OwnedMessage) -> Kept {
                message.0
            }
        }

        /// Fails where the message can't be written, or is another one once it is read again.
        impl TryFrom<&Message<'_>> for OwnedMessage {
            type Error = Fault;

            fn try_from(message: &Message<'_>) -> Result<OwnedMessage, Fault> {
                let mut bytes = alloc::vec::Vec::new();
                message.write(&mut bytes)?;
                OwnedMessage::read(&Frame { tag: message.tag(), bytes: &bytes, offset: 0 })
            }
        }

        impl core::fmt::Debug for OwnedMessage {
            fn fmt(&self, f: &mut core::fmt::Formatter<'_>) -> core::fmt::Result {
                self.message().fmt(f)
            }
        }
    };
}

pub(crate) use owned;
