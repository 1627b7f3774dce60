//! What a connection is known by in any recording: its number may be another one in each.

use crate::Record;
use std::collections::hash_map::DefaultHasher;
use std::hash::{Hash, Hasher};

/// The records of a connection, as far as they were added.
#[derive(Clone, Debug, Default)]
pub struct ConnectionIdentity(DefaultHasher);

impl ConnectionIdentity {
    /// Adds the next record, of a recording that began at a time.
    pub fn add(&mut self, begun: u64, record: &Record<'_>) {
        let time = begun.wrapping_add(record.time);
        (time, record.kind.letter(), record.content.len(), record.checksum).hash(&mut self.0);
    }

    /// The number by which records are the same, each with its time.
    pub fn number(&self) -> u64 {
        self.0.finish()
    }
}
