//! Where what passes goes: to a recording, to standard output, or both.

use crate::printer::Printer;
use crate::stdout::StdoutWriter;
use net::{let_others, ExitStatus, Failure, StderrWriter};
use recording::{RecordError, RecordKind, Side};
use std::collections::HashMap;
use std::path::{Path, PathBuf};
use std::sync::atomic::{AtomicBool, Ordering};
use std::sync::{Mutex, MutexGuard, PoisonError};

/// Longer contents are written without being copied.
const COPIED_MOST: usize = 4 << 10;

/// Nothing may pass any more. Why is told to the one that ends the program.
#[derive(Debug)]
pub struct Stopped;

/// Tells why the program ends.
pub type OnFailure = Box<dyn Fn(Failure) + Send + Sync>;

/// Takes what is to be a record, before it passes.
pub struct RecordSink {
    file: Option<RecordingOutput>,
    lines: Option<PrintedLines>,
    /// How many connections have been opened.
    opened: Mutex<u32>,
    /// Those of which one side has ended, and the other is to.
    ending: Mutex<HashMap<u32, Side>>,
    pub(crate) stderr: StderrWriter,
    on_failure: OnFailure,
}

/// A recording, and its file.
pub struct RecordingOutput {
    recorder: recording::Recorder,
    path: PathBuf,
    /// What passes does so also where it can't be recorded any more.
    goes_on: bool,
    is_lost: AtomicBool,
    /// What comes now comes after the end, and isn't lost.
    is_ending: AtomicBool,
}

/// Lines in the order of the records, and where they go.
struct PrintedLines {
    printer: Mutex<Printer>,
    stdout: StdoutWriter,
}

fn lock<T>(mutex: &Mutex<T>) -> MutexGuard<'_, T> {
    mutex.lock().unwrap_or_else(PoisonError::into_inner)
}

impl RecordingOutput {
    /// A recording whose file words name by a path. What passes may go on where it can't be recorded any more.
    pub fn new(recorder: recording::Recorder, path: &Path, goes_on: bool) -> RecordingOutput {
        RecordingOutput {
            recorder,
            path: path.to_owned(),
            goes_on,
            is_lost: AtomicBool::new(false),
            is_ending: AtomicBool::new(false),
        }
    }

    /// The same with a new file, which may be another one than words name.
    pub fn create(file: &Path, path: &Path, goes_on: bool) -> Result<RecordingOutput, Failure> {
        let recorder = recording::Recorder::create(file).map_err(|why| {
            Failure::new(ExitStatus::Unrecorded, format!("{} {why}", path.display()))
        })?;
        Ok(RecordingOutput::new(recorder, path, goes_on))
    }
}

impl RecordSink {
    /// Records and prints, where each is asked for.
    pub fn new(
        file: Option<RecordingOutput>,
        lines: Option<(Printer, StdoutWriter)>,
        stderr: StderrWriter,
        on_failure: OnFailure,
    ) -> RecordSink {
        RecordSink {
            file,
            lines: lines
                .map(|(printer, stdout)| PrintedLines { printer: Mutex::new(printer), stdout }),
            opened: Mutex::new(0),
            ending: Mutex::default(),
            stderr,
            on_failure,
        }
    }

    /// Takes the opening of a connection, and gives its number.
    pub async fn open(&self, peer: &str) -> Result<u32, Stopped> {
        let records = [(RecordKind::Opened, peer.as_bytes())];
        let (number, end) = {
            // The records are in the order of the numbers.
            let mut opened = lock(&self.opened);
            *opened += 1;
            (*opened, self.put(*opened, &records)?)
        };
        self.wait(end).await.map(|()| number)
    }

    /// Takes records of a connection. They may pass once this is over.
    pub async fn take(
        &self,
        connection: u32,
        records: &[(RecordKind, &[u8])],
    ) -> Result<(), Stopped> {
        let file = match (&self.lines, self.file()) {
            (None, None) => return Ok(()),
            (None, Some(file)) => file,
            _ => {
                let end = self.put(connection, records)?;
                return self.wait(end).await;
            }
        };
        if let &[(kind, content)] = records {
            if content.len() > COPIED_MOST {
                return self.judge(file, file.recorder.write_long(connection, kind, content));
            }
        }
        let end = file.recorder.add(connection, records);
        // What comes for several sessions at the same time is written at once.
        let_others().await;
        self.judge(file, file.recorder.write(end))
    }

    /// Notes that a side of a connection has ended, which is recorded with the end of the other, or with that of all.
    pub fn note_end(&self, connection: u32, first: Side) {
        lock(&self.ending).insert(connection, first);
    }

    /// Takes the end of a connection, of which a side closed it first.
    pub async fn close_connection(&self, connection: u32, first: Side) -> Result<(), Stopped> {
        lock(&self.ending).remove(&connection);
        let content = [RecordKind::Bytes(first).letter()];
        self.take(connection, &[(RecordKind::Closed, &content)]).await
    }

    /// The file, while something can be recorded.
    fn file(&self) -> Option<&RecordingOutput> {
        self.file.as_ref().filter(|file| !file.is_lost.load(Ordering::Relaxed))
    }

    /// Records and prints, and gives where the lines end.
    fn put(&self, connection: u32, records: &[(RecordKind, &[u8])]) -> Result<u64, Stopped> {
        let lines = match &self.lines {
            None => return self.record(connection, records).map(|()| 0),
            Some(lines) => lines,
        };
        let mut printer = lock(&lines.printer);
        self.record(connection, records)?;
        for &(kind, content) in records {
            printer.take(connection, kind, content);
        }
        printer.notes().iter().for_each(|words| self.stderr.say(words));
        Ok(lines.stdout.add(printer.lines()))
    }

    fn record(&self, connection: u32, records: &[(RecordKind, &[u8])]) -> Result<(), Stopped> {
        match self.file() {
            Some(file) => {
                let end = file.recorder.add(connection, records);
                self.judge(file, file.recorder.write(end))
            }
            None => Ok(()),
        }
    }

    /// Whether what is recorded may pass. That a recording is lost is told once.
    fn judge(
        &self,
        file: &RecordingOutput,
        written: Result<(), RecordError>,
    ) -> Result<(), Stopped> {
        let why = match written {
            Ok(()) => return Ok(()),
            Err(RecordError::Closed) if file.is_ending.load(Ordering::Relaxed) => {
                return Err(Stopped)
            }
            Err(why) => why,
        };
        if let RecordError::Io(_) = why {
            let words = format!("{} {why}", file.path.display());
            if file.goes_on {
                self.stderr.say(words);
                self.stderr.say("nothing is recorded from here on");
            } else {
                (self.on_failure)(Failure::new(ExitStatus::Unrecorded, words));
            }
        }
        file.is_lost.store(file.goes_on, Ordering::Relaxed);
        Some(()).filter(|()| file.goes_on).ok_or(Stopped)
    }

    async fn wait(&self, end: u64) -> Result<(), Stopped> {
        match &self.lines {
            Some(lines) => lines.stdout.wait(end).await.map_err(|_| Stopped),
            None => Ok(()),
        }
    }

    /// Ends the recording, and the connections of which one side has ended, once what is being written is: that may take for ever where the file is a pipe. A file without
    /// a record is taken away where no server could be reached.
    pub fn close(&self, is_unreachable: bool) {
        // No session records the end of its connection meanwhile.
        let mut ending = lock(&self.ending);
        for (connection, first) in ending.drain() {
            let content = [RecordKind::Bytes(first).letter()];
            let _ = self.put(connection, &[(RecordKind::Closed, &content)]);
        }
        if let Some(file) = &self.file {
            file.is_ending.store(true, Ordering::Relaxed);
            file.recorder.close();
            if is_unreachable {
                file.recorder.forget(&file.path);
            }
        }
    }

    /// Ends the lines, and gives the status where the recording is lost. Where a signal told the program to end, lines that
    /// nobody reads are given up.
    pub async fn end(&self, is_told: bool) -> Option<ExitStatus> {
        if let Some(lines) = &self.lines {
            self.end_printer(lines);
            if let Err(words) = lines.stdout.end(is_told).await {
                self.stderr.say(words);
            }
        }
        let is_lost = |file: &RecordingOutput| file.is_lost.load(Ordering::Relaxed);
        let is_lost = self.file.as_ref().is_some_and(is_lost);
        Some(ExitStatus::Unrecorded).filter(|_| is_lost)
    }

    fn end_printer(&self, lines: &PrintedLines) {
        let mut printer = lock(&lines.printer);
        printer.end();
        lines.stdout.add(printer.lines());
    }
}
