//! The recordings that are read.

use crate::event::Event;
use crate::event_decoder::EventDecoder;
use crate::failure::{Result, TapeFailure};
use crate::progress::{Progress, ProgressReader};
use recording::{Reader, Record};
use std::fs::File;
use std::io::{BufReader, Read, Seek, SeekFrom};
use std::path::{Path, PathBuf};

/// How much is read at once.
const ROOM: usize = 1 << 17;

/// A recording in a file.
pub struct RecordingFile {
    path: PathBuf,
    reader: Reader<BufReader<ProgressReader<File>>>,
}

pub fn open(path: &Path) -> Result<File> {
    File::open(path).map_err(|why| TapeFailure::unread(path, &why))
}

impl RecordingFile {
    /// Opens a recording, for work that a bar shows.
    pub fn open(path: &Path, progress: &Progress) -> Result<RecordingFile> {
        let file = BufReader::with_capacity(ROOM, progress.on(open(path)?));
        let reader = Reader::new(file).map_err(|damage| TapeFailure::damaged(&damage, path))?;
        Ok(RecordingFile { path: path.to_owned(), reader })
    }

    /// When it began, in microseconds since 1970.
    pub fn begun(&self) -> u64 {
        self.reader.begun()
    }

    /// The next record.
    pub fn read(&mut self) -> Result<Option<Record<'_>>> {
        let path = &self.path;
        self.reader.read().map_err(|damage| TapeFailure::damaged(&damage, path))
    }

    /// What follows the last whole record, at the end.
    pub fn tail(&self) -> Result<Vec<u8>> {
        let mut tail = Vec::new();
        if self.reader.is_cut() {
            let mut file = open(&self.path)?;
            let read = file
                .seek(SeekFrom::Start(self.reader.at()))
                .and_then(|_| file.read_to_end(&mut tail));
            read.map_err(|why| TapeFailure::unread(&self.path, &why))?;
        }
        Ok(tail)
    }

    /// Says that the file ends within a record, whose bytes are passed over.
    pub fn say_cut(&self) {
        if self.reader.is_cut() {
            let (path, at) = (self.path.display(), self.reader.at());
            crate::say(format_args!(
                "{path} ends within a record: it is read up to its last whole one, to offset {at}"
            ));
        }
    }

    /// Gives the events of all records.
    pub fn events(&mut self, mut sink: impl FnMut(Event<'_>) -> Result<()>) -> Result<()> {
        let mut cutter = EventDecoder::default();
        while let Some(record) = self.read()? {
            cutter.take(&record, &mut sink)?;
        }
        cutter.end(&mut sink)
    }
}
