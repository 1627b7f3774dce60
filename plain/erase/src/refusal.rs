//! Why a source is refused.

use std::fmt;
use std::path::{Path, PathBuf};

/// What a source has that the eraser doesn't know, and where.
#[derive(Debug, PartialEq, Eq)]
pub struct Refusal {
    /// The file, where it was read from one.
    pub file: PathBuf,
    /// The line, from 1.
    pub line: usize,
    /// What stands there.
    pub why: String,
}

impl Refusal {
    pub(crate) fn at(source: &str, at: usize, why: impl Into<String>) -> Self {
        let line = 1 + source[..at].matches('\n').count();
        Refusal { file: PathBuf::new(), line, why: why.into() }
    }

    pub(crate) fn of_file(file: &Path, error: std::io::Error) -> Self {
        Refusal { file: file.to_path_buf(), line: 0, why: error.to_string() }
    }
}

impl fmt::Display for Refusal {
    fn fmt(&self, f: &mut fmt::Formatter<'_>) -> fmt::Result {
        write!(f, "{}:{}: {}", self.file.display(), self.line, self.why)
    }
}

impl std::error::Error for Refusal {}
