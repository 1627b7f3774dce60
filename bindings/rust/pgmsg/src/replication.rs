//! What the data of a CopyData says while a server streams its log or a backup.
//!
//! PostgreSQL's documentation: "Streaming Replication Protocol". A position counts the bytes of the log, and a
//! clock the microseconds since the beginning of the year 2000.

mod any;
pub mod logical;

pub use pgmsg_core::pg_replication::{
    BackupData, HotStandbyFeedback, Manifest, NewArchive, PrimaryKeepalive, Progress,
    StandbyStatusUpdate, XLogData,
};

use crate::buffer::{put_answer, Buffer};
use crate::error::{Fault, Refusal};
use any::any;
use pgmsg_core::pg_replication::ReplicationMessage;

any! {
    /// A message of replication, of either side.
    ///
    /// ```
    /// use pgmsg::replication::{Message, StandbyStatusUpdate};
    /// use pgmsg::{backend, Decoder};
    ///
    /// let mut decoder = Decoder::of_server();
    /// let stream = b"d\0\0\0\x16k\0\0\0\0\x01\0\0\x60\0\0\0\0\0\0\0\x07\x01";
    /// let frame = decoder.next(stream)?.frame().ok_or("a whole message")?;
    /// let data = match backend::Message::read(&frame)? {
    ///     backend::Message::CopyData(data) => data,
    ///     other => panic!("{other:?}"),
    /// };
    /// match Message::read(data.0)? {
    ///     Message::PrimaryKeepalive(server) if server.wants_reply => {
    ///         let (seen, clock) = (server.end, server.clock);
    ///         let status = StandbyStatusUpdate { written: seen, flushed: seen, clock, ..Default::default() };
    ///         let mut out = Vec::new();
    ///         Message::StandbyStatusUpdate(status).write(&mut out)?;
    ///         assert_eq!(out.len(), 39);
    ///     }
    ///     other => panic!("{other:?}"),
    /// }
    /// # Ok::<(), Box<dyn std::error::Error>>(())
    /// ```
    pub enum Message of ReplicationMessage {
        /// A piece of the log, from the server.
        XLogData(XLogData<'a>) = b'w';
        /// The server is there.
        PrimaryKeepalive(PrimaryKeepalive) = b'k';
        /// How far the client has come.
        StandbyStatusUpdate(StandbyStatusUpdate) = b'r';
        /// Which transactions the client needs.
        HotStandbyFeedback(HotStandbyFeedback) = b'h';
        /// An archive of a backup begins.
        NewArchive(NewArchive<'a>) = b'n';
        /// The manifest of a backup begins.
        Manifest(Manifest) = b'm';
        /// Bytes of the archive or of the manifest that began last.
        BackupData(BackupData<'a>) = b'd';
        /// How many bytes of the backup were processed, before they were compressed.
        Progress(Progress) = b'p';
    }
}

impl<'a> Message<'a> {
    /// Reads the data of a CopyData by its first byte.
    ///
    /// Refused with [`UnknownMessageType`](Refusal::UnknownMessageType) where no message begins with this byte, and
    /// with [`TrailingBytes`](Refusal::TrailingBytes) where bytes follow the last part of a message.
    #[inline]
    pub fn read(data: &'a [u8]) -> Result<Message<'a>, Fault> {
        Ok(ReplicationMessage::read(data)?.into())
    }

    /// Appends the message as a whole CopyData, of which it is all data, or leaves the buffer as it was.
    ///
    /// Refused with [`TextHoldsNul`](Refusal::TextHoldsNul) where a text of a [`NewArchive`] holds a NUL, and with
    /// [`MessageTooLong`](Refusal::MessageTooLong) where the content is too long.
    pub fn write<B: Buffer>(&self, out: &mut B) -> Result<(), Refusal> {
        match self {
            Message::XLogData(it) => put_answer(it, out),
            Message::PrimaryKeepalive(it) => put_answer(it, out),
            Message::StandbyStatusUpdate(it) => put_answer(it, out),
            Message::HotStandbyFeedback(it) => put_answer(it, out),
            Message::NewArchive(it) => put_answer(it, out),
            Message::Manifest(it) => put_answer(it, out),
            Message::BackupData(it) => put_answer(it, out),
            Message::Progress(it) => put_answer(it, out),
        }
    }
}
