//! What a session and a command report of themselves.

use super::body::{body, getters};
use crate::lacking::{ends, refused, text};
use bytes::Buf;
use pgmsg::backend::{BackendKeyData, NotificationResponse, ParameterStatus, TransactionStatus};
use pgmsg::ByteStr;
use std::io;

/// What a request to cancel has to name.
pub struct BackendKeyDataBody {
    process_id: i32,
    secret_key: i32,
}

impl BackendKeyDataBody {
    pub(super) fn read(body: &[u8]) -> io::Result<BackendKeyDataBody> {
        let key = BackendKeyData::read(body)?;
        let secret_key = key.secret_key.0.try_into();
        let secret_key = secret_key.map_err(|_| refused("key of more than four bytes"))?;
        Ok(BackendKeyDataBody {
            process_id: key.process_id as i32,
            secret_key: i32::from_be_bytes(secret_key),
        })
    }

    getters! {
        /// The process of this session.
        process_id(self) -> i32 = self.process_id;
        /// The key that proves that the request comes from its client.
        secret_key(self) -> i32 = self.secret_key;
    }
}

body! {
    /// The end of a command.
    CommandCompleteBody as b'C', {
        /// The tag of the command: its name, and mostly a number of rows.
        tag(self) -> io::Result<&str> = text(ByteStr(self.0.strip_suffix(b"\0").unwrap_or_default()));
    }
}

body! {
    /// A notification from another session.
    NotificationResponseBody as b'A', {
        /// The process of the session that sent it.
        process_id(self) -> i32 = (&self.0[..]).get_i32();
        /// The name of the channel.
        channel(self) -> io::Result<&str> = text(NotificationResponse::read(&self.0)?.channel);
        /// What the sender passed on.
        message(self) -> io::Result<&str> = text(NotificationResponse::read(&self.0)?.payload);
    }
}

body! {
    /// A setting of the server and its value.
    ParameterStatusBody as b'S', {
        /// The name of the setting.
        name(self) -> io::Result<&str> = text(ParameterStatus::read(&self.0)?.name);
        /// Its value.
        value(self) -> io::Result<&str> = text(ParameterStatus::read(&self.0)?.value);
    }
}

/// The server is ready for the next query.
pub struct ReadyForQueryBody {
    status: u8,
}

impl ReadyForQueryBody {
    #[inline]
    pub(super) fn read(body: &[u8]) -> io::Result<ReadyForQueryBody> {
        let status = TransactionStatus::read(body)?.letter();
        ends(b'Z', body)?;
        Ok(ReadyForQueryBody { status })
    }

    getters! {
        /// The letter of the transaction's status: I where none is open, T in one, E in one that has
        /// failed.
        status(self) -> u8 = self.status;
    }
}
