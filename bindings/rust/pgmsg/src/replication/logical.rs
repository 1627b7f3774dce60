//! What a server streams of the changes of its tables: the content of an [`XLogData`](super::XLogData) of a logical
//! slot of pgoutput, or a row of `pg_logical_slot_get_binary_changes`.
//!
//! PostgreSQL's documentation: "Logical Replication Message Formats", in the versions 1 to 3 of the protocol. A
//! position counts the bytes of the log, and a clock the microseconds since the beginning of the year 2000.

pub use pgmsg_core::pg_replication::logical::{
    Begin, BeginPrepare, Commit, Datum, Delete, Insert, Message, Old, Origin, OutboundDatum,
    Prepared, Relation, Relations, RollbackPrepared, StreamAbort, StreamCommit, StreamStart,
    StreamStop, TableColumn as Column, TableColumns as Columns, Truncate, Tuple, TypeName, Update,
};

use crate::buffer::{put_text, Buffer};
use crate::error::{Fault, Refusal};
use crate::replication::any::any;
use pgmsg_core::pg_replication::logical::{self as core_logical, LogicalMessage as OfCore};

any! {
    /// A message of logical replication.
    ///
    /// ```
    /// use pgmsg::replication::logical::{Datum, LogicalMessage};
    ///
    /// let content = b"I\0\0\x40\x01N\0\x02t\0\0\0\x015n";
    /// match LogicalMessage::read(content, false)? {
    ///     LogicalMessage::Insert(insert) => {
    ///         assert_eq!((insert.relation, insert.transaction), (16385, None));
    ///         assert!(insert.new.iter().eq([Datum::Text(b"5"), Datum::Null]));
    ///     }
    ///     other => panic!("{other:?}"),
    /// }
    /// # Ok::<(), pgmsg::Fault>(())
    /// ```
    pub enum LogicalMessage of OfCore {
        /// A transaction begins.
        Begin(Begin) = b'B';
        /// A message that a program wrote to the log.
        Message(Message<'a>) = b'M';
        /// The transaction is committed.
        Commit(Commit) = b'C';
        /// The transaction came from another server.
        Origin(Origin<'a>) = b'O';
        /// A table and its columns.
        Relation(Relation<'a>) = b'R';
        /// The name of a type.
        TypeName(TypeName<'a>) = b'Y';
        /// A new row.
        Insert(Insert<'a>) = b'I';
        /// A row that is changed.
        Update(Update<'a>) = b'U';
        /// A row that is deleted.
        Delete(Delete<'a>) = b'D';
        /// Tables that are emptied.
        Truncate(Truncate<'a>) = b'T';
        /// Messages of a streamed transaction follow.
        StreamStart(StreamStart) = b'S';
        /// The end of these messages.
        StreamStop(StreamStop) = b'E';
        /// A streamed transaction is committed.
        StreamCommit(StreamCommit) = b'c';
        /// A streamed transaction is undone, or a part of it.
        StreamAbort(StreamAbort) = b'A';
        /// A transaction begins that is prepared.
        BeginPrepare(BeginPrepare<'a>) = b'b';
        /// It is prepared.
        Prepare(Prepared<'a>) = b'P';
        /// A prepared transaction is committed.
        CommitPrepared(Prepared<'a>) = b'K';
        /// A prepared transaction is undone.
        RollbackPrepared(RollbackPrepared<'a>) = b'r';
        /// A streamed transaction is prepared.
        StreamPrepare(Prepared<'a>) = b'p';
    }
}

impl<'a> LogicalMessage<'a> {
    /// Reads a message by its first byte. `streamed` says that the message stands between a Stream Start and a Stream
    /// Stop, where seven kinds begin with the number of their transaction; a [`LogicalStream`] keeps track of that.
    ///
    /// Refused with [`UnknownMessageType`](crate::Refusal::UnknownMessageType) where no kind has its letter, with
    /// [`UnknownLetter`](crate::Refusal::UnknownLetter) where no row or value has one, and with
    /// [`TrailingBytes`](crate::Refusal::TrailingBytes) where bytes follow the last part of a message.
    #[inline]
    pub fn read(content: &'a [u8], streamed: bool) -> Result<LogicalMessage<'a>, Fault> {
        Ok(OfCore::read(content, streamed)?.into())
    }

    /// Appends the message, as the content of an [`XLogData`](super::XLogData), or leaves the buffer as it was. Rows,
    /// columns and tables that were read are written again; others are given by [`Tuple::of`], [`Columns::of`] and
    /// [`Relations::of`].
    ///
    /// ```
    /// use pgmsg::replication::logical::{Datum, Insert, LogicalMessage, OutboundDatum, Tuple};
    ///
    /// let new = [Datum::Text(b"5"), Datum::Null].map(OutboundDatum::of);
    /// let insert = Insert { transaction: None, relation: 16385, new: Tuple::of(&new)? };
    /// let mut out = Vec::new();
    /// LogicalMessage::Insert(insert).write(&mut out)?;
    /// assert_eq!(out, b"I\0\0\x40\x01N\0\x02t\0\0\0\x015n");
    /// # Ok::<(), pgmsg::Refusal>(())
    /// ```
    ///
    /// Refused with [`TooMany`](Refusal::TooMany) for more than 65535 values or columns, with
    /// [`TextHoldsNul`](Refusal::TextHoldsNul) where a name holds a NUL, and with
    /// [`MessageTooLong`](Refusal::MessageTooLong) where the message is too long.
    pub fn write<B: Buffer>(&self, out: &mut B) -> Result<(), Refusal> {
        let message = OfCore::from(*self);
        put_text(&message, message.checked_len()?, out)
    }
}

/// Reads the messages of a slot in order, and knows which of them stand between a Stream Start and a Stream Stop.
///
/// ```
/// use pgmsg::replication::logical::{LogicalMessage, LogicalStream};
///
/// let mut stream = LogicalStream::new();
/// stream.read(b"S\0\0\x02\xf0\x01")?;
/// match stream.read(b"T\0\0\x02\xf1\0\0\0\x01\0\0\0\x40\x01")? {
///     LogicalMessage::Truncate(truncate) => assert_eq!(truncate.transaction, Some(753)),
///     other => panic!("{other:?}"),
/// }
/// # Ok::<(), pgmsg::Fault>(())
/// ```
#[derive(Clone, Copy, Debug, Default, PartialEq, Eq)]
pub struct LogicalStream {
    /// Whether the next message stands there.
    pub streamed: bool,
}

impl LogicalStream {
    /// Begins where replication begins, outside of a streamed transaction.
    pub const fn new() -> LogicalStream {
        LogicalStream { streamed: false }
    }

    /// Reads the next message as [`LogicalMessage::read`] does. After a fault the reader is as it was.
    #[inline]
    pub fn read<'a>(&mut self, content: &'a [u8]) -> Result<LogicalMessage<'a>, Fault> {
        let mut stream = core_logical::LogicalStream { streamed: self.streamed };
        let message = stream.read(content)?;
        self.streamed = stream.streamed;
        Ok(message.into())
    }
}
