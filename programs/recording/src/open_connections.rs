//! The connections that are open in a recording: each is opened as the next one, and has records until it is closed.

use crate::RecordKind;
use std::collections::BTreeSet;

/// The connections that are open after the records so far.
#[derive(Debug, Default)]
pub struct OpenConnections {
    opened: u32,
    open: BTreeSet<u32>,
}

impl OpenConnections {
    /// Takes the next record, or says why none like it may come next.
    pub fn take(
        &mut self,
        kind: RecordKind,
        connection: u32,
        content: &[u8],
    ) -> Result<(), &'static str> {
        let is_open = self.open.contains(&connection);
        match kind {
            RecordKind::Closed if !matches!(content, b"F" | b"B") => Err("it names no side"),
            RecordKind::Opened if connection != self.opened.wrapping_add(1) => {
                Err("a connection is opened out of turn")
            }
            RecordKind::Opened => {
                self.opened = connection;
                self.open.insert(connection);
                Ok(())
            }
            _ if !is_open => Err("its connection isn't open"),
            RecordKind::Closed => {
                self.open.remove(&connection);
                Ok(())
            }
            _ => Ok(()),
        }
    }
}
