//! The records of a recording from its messages.

use recording::{OpenConnections, RecordKind, Side, Writer, MOST};
use std::collections::HashMap;
use std::io::{self, Write};

/// Why a record can't be made.
#[derive(Debug, thiserror::Error)]
pub enum AssembleError {
    #[error("{0}")]
    File(#[from] io::Error),
    #[error("{0}")]
    Order(&'static str),
    #[error("no message of this side goes on")]
    NothingLeft,
    #[error("of the message {left} bytes are left, and {here} are to be here")]
    TooFew { here: usize, left: usize },
    #[error("the rest of the message before is missing: {0} bytes")]
    Missing(usize),
    #[error("all {0} bytes of the message are here")]
    All(usize),
    #[error("a record holds {most} bytes at most, and {0} are to be in this one", most = MOST)]
    TooLong(usize),
}

/// Where bytes of a message stand.
#[derive(Clone, Copy, Debug, PartialEq, Eq)]
pub struct RecordPosition {
    pub connection: u32,
    pub time: u64,
    pub side: Side,
    /// They begin a record.
    pub begins: bool,
}

/// Joins the bytes of messages to records, and writes these.
pub struct RecordAssembler<W: Write> {
    out: Writer<W>,
    connections: OpenConnections,
    /// Where the record at hand is, and its content.
    current: Option<RecordPosition>,
    content: Vec<u8>,
    /// What is left of a message whose next bytes lie in other records.
    rests: HashMap<(u32, Side), Vec<u8>>,
}

impl<W: Write> RecordAssembler<W> {
    pub fn new(out: W, begun: u64) -> io::Result<RecordAssembler<W>> {
        Ok(RecordAssembler {
            out: Writer::new(out, begun)?,
            connections: OpenConnections::default(),
            current: None,
            content: Vec::new(),
            rests: HashMap::new(),
        })
    }

    /// Adds a record that has no bytes of messages.
    pub fn record(
        &mut self,
        kind: RecordKind,
        connection: u32,
        time: u64,
        content: &[u8],
    ) -> Result<(), AssembleError> {
        self.flush()?;
        if kind == RecordKind::Closed {
            self.is_whole(connection, Side::Client)?;
            self.is_whole(connection, Side::Server)?;
        }
        self.put(kind, connection, time, content)
    }

    /// Adds a message, of which so many bytes are at this spot.
    pub fn message(
        &mut self,
        position: RecordPosition,
        bytes: &[u8],
        here: Option<usize>,
    ) -> Result<(), AssembleError> {
        // A record without bytes may stand anywhere.
        if !bytes.is_empty() {
            self.is_whole(position.connection, position.side)?;
        }
        let here = match here {
            None => return self.join(position, bytes),
            Some(here) if here >= bytes.len() => return Err(AssembleError::All(bytes.len())),
            Some(here) => here,
        };
        self.join(position, &bytes[..here])?;
        self.rests.insert((position.connection, position.side), bytes[here..].to_vec());
        Ok(())
    }

    /// Adds the next bytes of the last message of a side: so many, or all that are left.
    pub fn go_on(
        &mut self,
        position: RecordPosition,
        here: Option<usize>,
    ) -> Result<(), AssembleError> {
        let key = (position.connection, position.side);
        let mut rest = self.rests.remove(&key).ok_or(AssembleError::NothingLeft)?;
        let left = rest.len();
        match here {
            None => return self.join(position, &rest),
            Some(here) if here >= left => return Err(AssembleError::TooFew { here, left }),
            Some(here) => {
                self.join(position, &rest[..here])?;
                rest.drain(..here);
            }
        }
        self.rests.insert(key, rest);
        Ok(())
    }

    /// Writes all, and gives what it was written to. A message whose rest is missing is a fault.
    pub fn end(mut self) -> Result<W, AssembleError> {
        self.flush()?;
        match self.rests.values().map(Vec::len).next() {
            Some(left) => Err(AssembleError::Missing(left)),
            None => Ok(self.out.end()?),
        }
    }

    fn is_whole(&self, connection: u32, side: Side) -> Result<(), AssembleError> {
        if self.rests.is_empty() {
            return Ok(());
        }
        match self.rests.get(&(connection, side)) {
            Some(rest) => Err(AssembleError::Missing(rest.len())),
            None => Ok(()),
        }
    }

    /// Adds bytes to the record at hand, or begins another one.
    fn join(&mut self, position: RecordPosition, mut bytes: &[u8]) -> Result<(), AssembleError> {
        let goes_on = |it: RecordPosition| {
            (it.connection, it.time, it.side) == (position.connection, position.time, position.side)
        };
        if position.begins || !self.current.is_some_and(goes_on) {
            self.flush()?;
            self.current = Some(position);
        }
        while self.content.len() + bytes.len() > MOST {
            let (more, rest) = bytes.split_at(MOST - self.content.len());
            self.content.extend_from_slice(more);
            bytes = rest;
            self.flush()?;
            self.current = Some(position);
        }
        self.content.extend_from_slice(bytes);
        Ok(())
    }

    /// Writes the record at hand.
    fn flush(&mut self) -> Result<(), AssembleError> {
        if let Some(position) = self.current.take() {
            let content = std::mem::take(&mut self.content);
            self.put(
                RecordKind::Bytes(position.side),
                position.connection,
                position.time,
                &content,
            )?;
            self.content = content;
            self.content.clear();
        }
        Ok(())
    }

    fn put(
        &mut self,
        kind: RecordKind,
        connection: u32,
        time: u64,
        content: &[u8],
    ) -> Result<(), AssembleError> {
        if content.len() > MOST {
            return Err(AssembleError::TooLong(content.len()));
        }
        self.connections.take(kind, connection, content).map_err(AssembleError::Order)?;
        Ok(self.out.add(kind, connection, time, content)?)
    }
}
