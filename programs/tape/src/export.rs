//! A recording as JSON Lines.

use crate::failure::Result;
use crate::json_bytes::JsonBytes;
use crate::line::{put, BytesFields, HeaderFields, LineContent, LinePosition, LineWriter, VERSION};
use crate::output::Output;
use crate::progress::Progress;
use crate::recording_file::RecordingFile;
use std::path::Path;

/// How many bytes of lines are held to be written at once.
const ROOM: usize = 1 << 17;

pub fn export(path: &Path, to: Option<&Path>) -> Result<()> {
    let mut recording = RecordingFile::open(path, &Progress::new("export", &[path]))?;
    let mut out = Output::to(to)?;
    let (mut lines, mut writer) = (Vec::new(), LineWriter::default());
    let head = HeaderFields { version: VERSION, begun: recording.begun() };
    put(&mut lines, LinePosition::default(), &LineContent::Recording(head));
    recording.events(|event| {
        writer.event(&mut lines, &event);
        if lines.len() > ROOM {
            out.put(&lines)?;
            lines.clear();
        }
        Ok(())
    })?;
    let tail = recording.tail()?;
    if !tail.is_empty() {
        put(
            &mut lines,
            LinePosition::default(),
            &LineContent::Cut(BytesFields { data: JsonBytes(tail.into()) }),
        );
    }
    out.put(&lines)?;
    out.end()
}
