//! Sessions taken out of a recording.

use crate::failure::{Result, TapeFailure, TapeStatus};
use crate::merge::ConnectionNumbers;
use crate::output::Output;
use crate::progress::Progress;
use crate::recording_file::RecordingFile;
use crate::selection::{ConnectionRange, ConnectionSelection};
use recording::Writer;
use std::path::Path;

/// Copies a recording without the connections that are named, or with those alone.
pub fn remove(path: &Path, named: &[ConnectionRange], keeps: bool, to: &Path) -> Result<()> {
    let mut out = Output::create(to)?;
    let mut recording = RecordingFile::open(path, &Progress::new("drop", &[path]))?;
    let unwritten = |why| TapeFailure::unwritten(to, &why);
    let mut writer = Writer::new(&mut out, recording.begun()).map_err(unwritten)?;
    let (mut selection, mut numbers) =
        (ConnectionSelection::new(named), ConnectionNumbers::default());
    while let Some(record) = recording.read()? {
        if selection.has(record.connection) == keeps {
            let number = numbers.of(0, record.connection);
            writer.add(record.kind, number, record.time, record.content).map_err(unwritten)?;
        }
    }
    writer.end().map_err(unwritten)?;
    recording.say_cut();
    match &selection.missing()[..] {
        [] => out.end(),
        missing => Err(TapeFailure::new(
            TapeStatus::Usage,
            format!("{} has no connection {}", path.display(), missing.join(", ")),
        )),
    }
}
