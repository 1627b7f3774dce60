//! The recording of what a replay passes on to a server, and of the sessions that it takes the place of.

use crate::options::{self, ReplayOptions};
use anyhow::anyhow;
use net::{ExitStatus, Failure, StderrWriter, Stream, Upstream};
use pg_record::{Link, LinkError, RecordSink, RecordingOutput};
use recording::{
    unnamed_file, ConnectionIdentity, Damage, PartialFile, PersistError, Reader, RecordKind, Writer,
};
use std::collections::{HashMap, HashSet};
use std::fs::{File, OpenOptions};
use std::future::Future;
use std::io::{self, BufReader, BufWriter, Write};
use std::os::unix::io::AsRawFd;
use std::path::{Path, PathBuf};
use std::sync::{Mutex, PoisonError};
use std::time::Duration;
use tokio::time::timeout;

/// How many bytes are read or written at once.
const ROOM: usize = 1 << 17;

/// How long the server may take to let a session begin.
const OPENING: Duration = Duration::from_secs(60);

/// A run in which sessions are recorded. They are in a file of its own until it ends.
pub struct Renewal {
    /// What passes in this run.
    pub sink: RecordSink,
    upstream: Upstream,
    /// The file of this run, which has no name, and a path by which it is opened.
    _run: File,
    run: PathBuf,
    /// The recording that will have the sessions, and whether it keeps those that it has.
    path: PathBuf,
    keeps_old: bool,
    /// The connections of this run that the recording will have.
    new: Mutex<HashSet<u32>>,
}

fn unwritten(path: &Path, why: &io::Error) -> Failure {
    Failure::new(ExitStatus::Unrecorded, format!("{} can't be written: {why}", path.display()))
}

fn unread(path: &Path, why: Damage) -> Failure {
    Failure::new(ExitStatus::Damaged, why.about(path))
}

/// Opens a recording.
fn open(path: &Path) -> Result<Reader<BufReader<File>>, Damage> {
    Reader::new(BufReader::with_capacity(ROOM, File::open(path)?))
}

/// What a server answers within the time that it has.
async fn in_time<T>(answer: impl Future<Output = anyhow::Result<T>>) -> anyhow::Result<T> {
    timeout(OPENING, answer).await.unwrap_or_else(|_| Err(anyhow!("the server doesn't answer")))
}

impl Renewal {
    /// Begins to record what the options ask for, if anything. Why it can't be any more is told by `fails`.
    pub async fn begin(
        options: &ReplayOptions,
        stderr: &StderrWriter,
        fails: impl Fn(Failure) + Send + Sync + 'static,
    ) -> Result<Option<Renewal>, Failure> {
        if options.recorded() == options::RecordMode::Nothing {
            return Ok(None);
        }
        let path = options.file.clone();
        let failed = |why| unwritten(&path, &why);
        let upstream = options.server.find().await?;
        let file = unnamed_file(&path).map_err(failed)?;
        let run = PathBuf::from(format!("/proc/self/fd/{}", file.as_raw_fd()));
        let recorded =
            recording::Recorder::begin(file.try_clone().map_err(failed)?).map_err(failed)?;
        let recorded = RecordingOutput::new(recorded, &path, false);
        let sink = RecordSink::new(Some(recorded), None, stderr.clone(), Box::new(fails));
        let keeps_old = options.recorded() == options::RecordMode::Missing;
        Ok(Some(Renewal {
            sink,
            upstream,
            _run: file,
            run,
            path,
            keeps_old,
            new: Mutex::default(),
        }))
    }

    /// The recording that is replayed beside: one without a session where there is none, or all is recorded.
    pub fn replayed(&self) -> &Path {
        match self.keeps_old && self.path.exists() {
            true => &self.path,
            false => &self.run,
        }
    }

    /// A connection to the server.
    pub async fn connect(&self) -> anyhow::Result<Stream> {
        in_time(self.upstream.connect()).await
    }

    /// A connection over which this Startup, which is recorded, was said, and what the server has answered so far.
    pub async fn say(&self, startup: &[u8]) -> anyhow::Result<(Stream, Vec<u8>)> {
        in_time(self.upstream.start(self.connect().await?, startup)).await
    }

    /// The link of a client that has said a Startup of so many bytes, or a request to cancel with 0.
    pub async fn start(&self, link: Link, number: u32, startup: usize) -> Result<Link, LinkError> {
        match startup {
            0 => Ok(link),
            _ => link.start(&self.upstream, &self.sink, number, startup).await,
        }
    }

    /// Has the recording get a connection of this run.
    pub fn keep(&self, number: u32) {
        self.new.lock().unwrap_or_else(PoisonError::into_inner).insert(number);
    }

    /// What is recorded of this run.
    pub fn recorded(&self) -> Result<Reader<BufReader<File>>, Damage> {
        open(&self.run)
    }

    /// Puts the new sessions into the recording, without old ones that they take the place of, as far as these are there
    /// still. Answers how many are new, and how many gone.
    pub fn end(&self, replaced: &HashSet<u64>) -> Result<(usize, usize), Failure> {
        self.sink.close(false);
        let new = self.new.lock().unwrap_or_else(PoisonError::into_inner);
        let failed = |why: io::Error| unwritten(&self.path, &why);
        while !new.is_empty() {
            let partial = PartialFile::beside(&self.path).map_err(failed)?;
            let gone = self.write(&partial, replaced, &new)?;
            match partial.persist() {
                Ok(()) => return Ok((new.len(), gone)),
                // What the recording is now is read again.
                Err(PersistError::Changed) => {}
                Err(PersistError::File(why)) => return Err(failed(why)),
            }
        }
        Ok((0, 0))
    }

    /// Writes the recording as it will be. Answers how many of its sessions are gone.
    fn write(
        &self,
        partial: &PartialFile,
        replaced: &HashSet<u64>,
        new: &HashSet<u32>,
    ) -> Result<usize, Failure> {
        let failed = |why: io::Error| unwritten(&self.path, &why);
        let file = OpenOptions::new().append(true).open(partial.path()).map_err(failed)?;
        let damaged = |why| unread(&self.path, why);
        let run = self.recorded().map_err(damaged)?;
        let old = self.old().map_err(damaged)?;
        let begun = old.as_ref().map_or(run.begun(), Reader::begun);
        let later = run.begun().saturating_sub(begun);
        let writer = Writer::new(BufWriter::with_capacity(ROOM, file), begun).map_err(failed)?;
        let mut joined = ConnectionCopier { writer, numbers: HashMap::new(), opened: 0, time: 0 };
        let mut gone = HashSet::new();
        if let Some(old) = old {
            gone = self.find(replaced).map_err(damaged)?;
            joined.add(old, &self.path, 0, |it| !gone.contains(&it))?;
        }
        joined.add(run, &self.path, later, |it| new.contains(&it))?;
        joined.writer.end().map_err(failed)?;
        Ok(gone.len())
    }

    /// The recording as it is now, where there is one whose sessions stay.
    fn old(&self) -> Result<Option<Reader<BufReader<File>>>, Damage> {
        match self.keeps_old.then(|| open(&self.path)) {
            Some(Err(Damage::File(why))) if why.kind() == io::ErrorKind::NotFound => Ok(None),
            old => old.transpose(),
        }
    }

    /// The numbers that some sessions have in the recording now: one each, where a session is in it twice.
    fn find(&self, sessions: &HashSet<u64>) -> Result<HashSet<u32>, Damage> {
        let (mut reader, mut all) = (open(&self.path)?, HashMap::<u32, ConnectionIdentity>::new());
        let begun = reader.begun();
        while let Some(record) = reader.read()? {
            all.entry(record.connection).or_default().add(begun, &record);
        }
        let numbers = all.into_iter().map(|(number, it)| (it.number(), number));
        let numbers: HashMap<u64, u32> = numbers.collect();
        Ok(sessions.iter().filter_map(|it| numbers.get(it).copied()).collect())
    }
}

/// A recording that is made of connections of others, one recording after the other.
struct ConnectionCopier<W: Write> {
    writer: Writer<W>,
    /// The numbers of the connections of the recording at hand.
    numbers: HashMap<u32, u32>,
    opened: u32,
    time: u64,
}

impl<W: Write> ConnectionCopier<W> {
    /// Adds the connections that are wanted of a recording, which began so many microseconds later.
    fn add(
        &mut self,
        mut from: Reader<BufReader<File>>,
        path: &Path,
        later: u64,
        is_wanted: impl Fn(u32) -> bool,
    ) -> Result<(), Failure> {
        self.numbers.clear();
        while let Some(record) = from.read().map_err(|why| unread(path, why))? {
            if !is_wanted(record.connection) {
                continue;
            }
            if record.kind == RecordKind::Opened {
                self.opened += 1;
                self.numbers.insert(record.connection, self.opened);
            }
            let number = self.numbers.get(&record.connection).copied().unwrap_or_default();
            self.time = self.time.max(record.time + later);
            let added = self.writer.add(record.kind, number, self.time, record.content);
            added.map_err(|why| unwritten(path, &why))?;
        }
        Ok(())
    }
}
