//! How the program ends.

use recording::Damage;
use std::io;
use std::path::Path;

/// The exit statuses. Those above 2 are pg_record's and pg_replay's.
#[derive(Clone, Copy, Debug, PartialEq, Eq)]
#[repr(u8)]
pub enum TapeStatus {
    Ok = 0,
    /// Two recordings differ.
    Different = 1,
    /// The arguments fit no form, or a file of rules has a fault.
    Usage = 2,
    /// A file can't be read or written.
    Local = 7,
    /// A file is no recording, or no export of one, or has a fault.
    Damaged = 10,
    /// A recording from which secrets were taken may have more, where their places can't be told.
    Untold = 13,
    /// A recorded session breaks the order of the protocol.
    OutOfOrder = 14,
}

/// Why the program ends, with its status.
#[derive(Debug, thiserror::Error)]
#[error("{words}")]
pub struct TapeFailure {
    pub status: TapeStatus,
    words: String,
}

pub type Result<T> = std::result::Result<T, TapeFailure>;

impl TapeFailure {
    pub fn new(status: TapeStatus, words: impl Into<String>) -> TapeFailure {
        TapeFailure { status, words: words.into() }
    }

    /// A recording that can't be read on.
    pub fn damaged(damage: &Damage, path: &Path) -> TapeFailure {
        let status = match damage {
            Damage::File(_) => TapeStatus::Local,
            _ => TapeStatus::Damaged,
        };
        TapeFailure::new(status, damage.about(path))
    }

    /// A file that can't be read.
    pub fn unread(path: &Path, why: &io::Error) -> TapeFailure {
        TapeFailure::new(TapeStatus::Local, format!("{} can't be read: {why}", path.display()))
    }

    /// A file that can't be written. Where nobody reads a pipe any more, as after `head`, there are no words.
    pub fn unwritten(path: &Path, why: &io::Error) -> TapeFailure {
        let words = match why.kind() {
            io::ErrorKind::BrokenPipe => String::new(),
            _ => format!("{} can't be written: {why}", path.display()),
        };
        TapeFailure::new(TapeStatus::Local, words)
    }

    /// Whether there is something to say of it.
    pub fn has_words(&self) -> bool {
        !self.words.is_empty()
    }
}
