//! Recordings joined to one, by the time of their records.

use crate::failure::{Result, TapeFailure};
use crate::output::Output;
use crate::progress::Progress;
use crate::recording_file::RecordingFile;
use recording::{RecordKind, Writer};
use std::collections::HashMap;
use std::path::{Path, PathBuf};

/// The numbers of connections in a recording that is made of others: one more for each that is opened.
#[derive(Default)]
pub struct ConnectionNumbers {
    given: HashMap<(usize, u32), u32>,
    last: u32,
}

impl ConnectionNumbers {
    /// The number for a connection of a recording, by that recording's number in a list.
    pub fn of(&mut self, recording: usize, connection: u32) -> u32 {
        *self.given.entry((recording, connection)).or_insert_with(|| {
            self.last += 1;
            self.last
        })
    }
}

/// A recording, with its next record.
struct MergeSource {
    recording: RecordingFile,
    next: Option<(RecordKind, u32, u64)>,
    content: Vec<u8>,
}

impl MergeSource {
    fn open(path: &Path, progress: &Progress) -> Result<MergeSource> {
        let mut source = MergeSource {
            recording: RecordingFile::open(path, progress)?,
            next: None,
            content: Vec::new(),
        };
        source.step()?;
        Ok(source)
    }

    /// Goes on to the next record, whose time is that since 1970.
    fn step(&mut self) -> Result<()> {
        let begun = self.recording.begun();
        self.next = match self.recording.read()? {
            None => None,
            Some(record) => {
                self.content.clear();
                self.content.extend_from_slice(record.content);
                Some((record.kind, record.connection, begun.saturating_add(record.time)))
            }
        };
        Ok(())
    }
}

/// Merges recordings. Of records of one time those of the recording come first that is named first.
pub fn merge(paths: &[PathBuf], to: &Path) -> Result<()> {
    let all: Vec<&Path> = paths.iter().map(PathBuf::as_path).collect();
    let progress = Progress::new("merge", &all);
    let mut out = Output::create(to)?;
    let sources: Result<Vec<MergeSource>> =
        all.iter().map(|path| MergeSource::open(path, &progress)).collect();
    let mut sources = sources?;
    let begun = sources.iter().map(|it| it.recording.begun()).min().unwrap_or_default();
    let unwritten = |why| TapeFailure::unwritten(to, &why);
    let mut writer = Writer::new(&mut out, begun).map_err(unwritten)?;
    let mut numbers = ConnectionNumbers::default();
    let time_of =
        |(_, source): &(usize, &mut MergeSource)| source.next.map_or(u64::MAX, |(_, _, time)| time);
    while let Some((at, source)) =
        sources.iter_mut().enumerate().filter(|(_, it)| it.next.is_some()).min_by_key(time_of)
    {
        if let Some((kind, connection, time)) = source.next {
            let number = numbers.of(at, connection);
            writer.add(kind, number, time - begun, &source.content).map_err(unwritten)?;
        }
        source.step()?;
    }
    writer.end().map_err(unwritten)?;
    sources.iter().for_each(|it| it.recording.say_cut());
    out.end()
}
