//! A recording that is made while sessions go on.

use crate::{
    crc32, file_head, put_record, record_head, RecordKind, HEAD, RECORD_HEAD, RECORD_TAIL,
};
use std::fs::{self, File, Metadata, OpenOptions, Permissions};
use std::io::{self, IoSlice, Write};
use std::mem;
use std::os::unix::fs::{MetadataExt, OpenOptionsExt, PermissionsExt};
use std::path::Path;
use std::sync::{Mutex, MutexGuard, PoisonError};
use std::time::{Instant, SystemTime, UNIX_EPOCH};

/// A recording to which many sessions add records. A thread that writes takes the records of all, so that those who wait for
/// it find theirs written. What is written is in the file, also where the process is killed right after.
pub struct Recorder {
    begun: Instant,
    queue: Mutex<PendingRecords>,
    out: Mutex<AppendFile>,
}

/// What isn't written yet.
struct PendingRecords {
    bytes: Vec<u8>,
    /// How many bytes have been added, those of the file among them.
    added: u64,
}

/// The file, and how much of it is written.
struct AppendFile {
    file: File,
    spare: Vec<u8>,
    written: u64,
    /// Nothing is written any more.
    is_closed: bool,
}

/// Nothing can be recorded any more. The file ends with the last whole write.
#[derive(Debug, thiserror::Error)]
pub enum RecordError {
    /// This write has failed.
    #[error("can't be written: {0}")]
    Io(#[from] io::Error),
    /// One before has failed, or the recording is closed.
    #[error("can't be written any more")]
    Closed,
}

fn lock<T>(mutex: &Mutex<T>) -> MutexGuard<'_, T> {
    mutex.lock().unwrap_or_else(PoisonError::into_inner)
}

impl Recorder {
    /// Makes a file of a recording without records, which nobody else may read. A regular file that isn't empty is
    /// refused by the words that follow its name.
    pub fn create(path: &Path) -> Result<Recorder, String> {
        let mut options = OpenOptions::new();
        options.append(true).create(true).mode(0o600);
        let file = options.open(path).map_err(|why| format!("can't be opened: {why}"))?;
        if let Some(it) = file.metadata().ok().filter(Metadata::is_file) {
            if it.len() > 0 {
                return Err("has something in it: name a file for a new recording".to_owned());
            }
            // The file may be an empty one that others could read.
            file.set_permissions(Permissions::from_mode(0o600))
                .map_err(|why| format!("can't be kept from others: {why}"))?;
        }
        Recorder::begin(file).map_err(|why| format!("can't be written: {why}"))
    }

    /// Begins a recording in an empty file.
    pub fn begin(mut file: File) -> io::Result<Recorder> {
        let now = SystemTime::now().duration_since(UNIX_EPOCH).unwrap_or_default();
        let head = file_head(now.as_micros() as u64);
        file.write_all(&head)?;
        let begun = HEAD as u64;
        let queue = PendingRecords { bytes: Vec::new(), added: begun };
        let out = AppendFile { file, spare: Vec::new(), written: begun, is_closed: false };
        Ok(Recorder { begun: Instant::now(), queue: Mutex::new(queue), out: Mutex::new(out) })
    }

    /// Adds records of a connection, one after the other, and gives the place where they end, up to which they are to be
    /// written.
    pub fn add(&self, connection: u32, records: &[(RecordKind, &[u8])]) -> u64 {
        // The checksum of one is made before others are kept waiting; more at a time are rare.
        let checksum = match records {
            &[(_, content)] => crc32(content),
            _ => 0,
        };
        let mut queue = lock(&self.queue);
        for &(kind, content) in records {
            let checksum = if records.len() > 1 { crc32(content) } else { checksum };
            let time = self.now();
            put_record(&mut queue.bytes, kind, connection, time, content, checksum);
            queue.added += (RECORD_HEAD + content.len() + RECORD_TAIL) as u64;
        }
        queue.added
    }

    /// Writes all that was added, unless another thread has written it up to a place.
    pub fn write(&self, end: u64) -> Result<(), RecordError> {
        let mut out = lock(&self.out);
        if out.written >= end && !out.is_closed {
            return Ok(());
        }
        let (bytes, _) = self.take(&mut out, 0);
        out.write([&bytes, &[], &[], &[]])?;
        out.keep(bytes);
        Ok(())
    }

    /// Writes a record after all that was added, without copying its content.
    pub fn write_long(
        &self,
        connection: u32,
        kind: RecordKind,
        content: &[u8],
    ) -> Result<(), RecordError> {
        let checksum = crc32(content).to_be_bytes();
        let mut out = lock(&self.out);
        let (bytes, time) = self.take(&mut out, RECORD_HEAD + content.len() + RECORD_TAIL);
        let head = record_head(kind, connection, time, content.len());
        out.write([&bytes, &head, content, &checksum])?;
        out.keep(bytes);
        Ok(())
    }

    /// Takes what was added away, and counts bytes of a record that follows it at once, at a time.
    fn take(&self, out: &mut AppendFile, following: usize) -> (Vec<u8>, u64) {
        let spare = mem::take(&mut out.spare);
        let mut queue = lock(&self.queue);
        queue.added += following as u64;
        (mem::replace(&mut queue.bytes, spare), self.now())
    }

    /// How long it has been recorded, in microseconds.
    fn now(&self) -> u64 {
        self.begun.elapsed().as_micros() as u64
    }

    /// Has nothing be written any more: what is being written is whole before.
    pub fn close(&self) {
        lock(&self.out).is_closed = true;
    }

    /// Takes the file away where it has no record, so that its name can be used again. Where a link led to the file, both
    /// stay, and the file is empty.
    pub fn forget(&self, path: &Path) {
        let out = lock(&self.out);
        let is_empty = |it: &Metadata| it.is_file() && it.len() == HEAD as u64;
        if let Some(own) = out.file.metadata().ok().filter(is_empty) {
            let is_own = |it: Metadata| (it.dev(), it.ino()) == (own.dev(), own.ino());
            let _ = match fs::symlink_metadata(path).is_ok_and(is_own) {
                true => fs::remove_file(path),
                false => out.file.set_len(0),
            };
        }
    }
}

impl AppendFile {
    /// Writes parts one after the other, or cuts the file where it ended before.
    fn write(&mut self, parts: [&[u8]; 4]) -> Result<(), RecordError> {
        if self.is_closed {
            return Err(RecordError::Closed);
        }
        if let Err(why) = write_all(&mut self.file, parts) {
            self.is_closed = true;
            // A file that can't be cut ends within a record, which a reader sees.
            let _ = self.file.set_len(self.written);
            return Err(RecordError::Io(why));
        }
        self.written += parts.iter().map(|part| part.len() as u64).sum::<u64>();
        Ok(())
    }

    /// Keeps the room of what is written.
    fn keep(&mut self, mut bytes: Vec<u8>) {
        bytes.clear();
        self.spare = bytes;
    }
}

/// Writes parts by one call of the system, or by more where a file takes less at a time.
fn write_all(file: &mut File, parts: [&[u8]; 4]) -> io::Result<()> {
    let mut passed = match parts {
        [_, [], [], []] => 0,
        _ => match file.write_vectored(&parts.map(IoSlice::new)) {
            Err(why) if why.kind() == io::ErrorKind::Interrupted => 0,
            written => written?,
        },
    };
    for part in parts {
        let skipped = passed.min(part.len());
        passed -= skipped;
        file.write_all(&part[skipped..])?;
    }
    Ok(())
}

#[cfg(test)]
mod tests {
    use super::*;
    use crate::{Reader, Side};

    #[test]
    fn an_empty_file_that_others_can_read_is_kept_from_them() {
        let path = tempfile::NamedTempFile::new().unwrap().into_temp_path();
        fs::set_permissions(&path, Permissions::from_mode(0o644)).unwrap();
        Recorder::create(&path).unwrap();
        assert_eq!(fs::metadata(&path).unwrap().mode() & 0o777, 0o600);
    }

    #[test]
    fn a_link_is_not_taken_away_for_its_file() {
        let folder = tempfile::tempdir().unwrap();
        let (path, link) = (folder.path().join("tape"), folder.path().join("link"));
        std::os::unix::fs::symlink(&path, &link).unwrap();
        Recorder::create(&link).unwrap().forget(&link);
        assert_eq!(
            (fs::read_link(&link).unwrap(), fs::metadata(&path).unwrap().len()),
            (path.clone(), 0)
        );
        Recorder::create(&link).unwrap().forget(&path);
        assert!(!path.exists());
    }

    #[test]
    fn what_is_added_is_read() {
        let path = std::env::temp_dir().join(format!("recording.{}", std::process::id()));
        let recorder = Recorder::create(&path).unwrap();
        let records: [(RecordKind, &[u8]); 3] = [
            (RecordKind::Opened, b"[local]"),
            (RecordKind::Bytes(Side::Client), b"\0\0\0\x08\x04\xd2\x16\x2f"),
            (RecordKind::Closed, b"F"),
        ];
        let first = recorder.add(1, &records[..1]);
        let second = recorder.add(1, &records[1..2]);
        recorder.write(first).unwrap();
        recorder.write(second).unwrap();
        recorder.write_long(1, records[2].0, records[2].1).unwrap();
        recorder.close();
        assert!(matches!(recorder.write(recorder.add(1, &records[..1])), Err(RecordError::Closed)));
        assert!(Recorder::create(&path).err().unwrap().contains("has something in it"));
        let mut reader = Reader::new(File::open(&path).unwrap()).unwrap();
        fs::remove_file(&path).unwrap();
        for (kind, content) in records {
            let record = reader.read().unwrap().unwrap();
            assert_eq!((record.kind, record.connection, record.content), (kind, 1, content));
        }
        assert!(reader.read().unwrap().is_none() && !reader.is_cut());
    }
}
