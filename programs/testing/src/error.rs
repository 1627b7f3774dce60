use std::io;
use std::path::PathBuf;

/// Why tests can't run on a recording, or differ from it.
#[derive(Debug, thiserror::Error)]
#[non_exhaustive]
pub enum Error {
    /// There is no recording yet.
    #[error("no recording {0}: the test makes it with PG_TAPE=record and a server that PGHOST and PGPORT name")]
    NoRecording(PathBuf),
    /// No client connected, so nothing is recorded.
    #[error("no client connected to 127.0.0.1 port {0}: is another address set, or was the connection opened before?")]
    NoClient(u16),
    /// A client said something else than the recording has, or less. The words are those of pg_replay, with its diff.
    #[error("a client differs from {path}:\n{said}")]
    Differs {
        /// The recording.
        path: PathBuf,
        /// The report of pg_replay.
        said: String,
    },
    /// A program failed. The words are those of the program.
    #[error("{program} {what}:\n{said}")]
    Failed {
        /// pg_record or pg_replay.
        program: &'static str,
        /// What the program did.
        what: String,
        /// What the program wrote to standard error.
        said: String,
    },
    /// A program can't be started: the package pg-record has it.
    #[error("{program} can't be started: {why}")]
    NoProgram {
        /// The name or the path by which it was looked for.
        program: String,
        /// The error of the system.
        why: io::Error,
    },
    /// A file can't be written, renamed or removed.
    #[error(transparent)]
    File(#[from] io::Error),
}
