//! A recording for each session.

use crate::failure::{Result, TapeFailure, TapeStatus};
use crate::output::Output;
use crate::progress::Progress;
use crate::recording_file::RecordingFile;
use recording::{Record, RecordKind, Writer};
use std::collections::HashMap;
use std::fs;
use std::path::{Path, PathBuf};

/// How much of a session is written at once, of which many may be open.
const ROOM: usize = 1 << 12;

/// The number of the only connection of a recording.
const ONLY: u32 = 1;

/// The recording of a session.
struct SplitFile {
    path: PathBuf,
    writer: Writer<Output>,
}

impl SplitFile {
    fn create(folder: &Path, connection: u32, begun: u64) -> Result<SplitFile> {
        let path = folder.join(format!("{connection:06}.tape"));
        if path.exists() {
            return Err(TapeFailure::new(
                TapeStatus::Local,
                format!("{} is there already", path.display()),
            ));
        }
        let out = Output::with_room(&path, ROOM)?;
        let writer = Writer::new(out, begun).map_err(|why| TapeFailure::unwritten(&path, &why))?;
        Ok(SplitFile { path, writer })
    }

    fn add(&mut self, record: &Record<'_>) -> Result<()> {
        let added = self.writer.add(record.kind, ONLY, record.time, record.content);
        added.map_err(|why| TapeFailure::unwritten(&self.path, &why))
    }

    fn end(self) -> Result<()> {
        let path = &self.path;
        self.writer.end().map_err(|why| TapeFailure::unwritten(path, &why))?.end()
    }
}

/// Writes each session of a recording to a file of a folder, which is named after the connection's number.
pub fn split(path: &Path, folder: &Path) -> Result<()> {
    let mut recording = RecordingFile::open(path, &Progress::new("split", &[path]))?;
    fs::create_dir_all(folder).map_err(|why| TapeFailure::unwritten(folder, &why))?;
    let begun = recording.begun();
    let mut parts = HashMap::new();
    while let Some(record) = recording.read()? {
        let connection = record.connection;
        if record.kind == RecordKind::Opened {
            parts.insert(connection, SplitFile::create(folder, connection, begun)?);
        }
        if let Some(part) = parts.get_mut(&connection) {
            part.add(&record)?;
        }
        if record.kind == RecordKind::Closed {
            parts.remove(&connection).map_or(Ok(()), SplitFile::end)?;
        }
    }
    recording.say_cut();
    parts.into_values().try_for_each(SplitFile::end)
}
