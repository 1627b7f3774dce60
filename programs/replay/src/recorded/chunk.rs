//! Bytes of a recording, which are compared with what was checked whenever they are read.

use crc32fast::Hasher;
use std::fs::File;
use std::io;
use std::ops::Range;
use std::os::unix::fs::FileExt;

/// The recording isn't what it was any more, or can't be read.
#[derive(Debug, thiserror::Error)]
pub enum RereadError {
    #[error("was changed while it was served")]
    Changed,
    #[error("can't be read: {0}")]
    File(#[from] io::Error),
}

/// Bytes within one record.
#[derive(Clone, Copy, Debug)]
pub struct Chunk {
    at: u64,
    len: u32,
    checksum: u32,
}

impl Chunk {
    pub fn of(bytes: &[u8], at: u64) -> Chunk {
        Chunk { at, len: bytes.len() as u32, checksum: crc32fast::hash(bytes) }
    }

    /// Where they begin in the file.
    pub fn at(&self) -> u64 {
        self.at
    }

    /// Their checksum, to which that of others can be added.
    pub fn sum(&self) -> Hasher {
        Hasher::new_with_initial_len(self.checksum, self.len.into())
    }

    pub fn len(&self) -> usize {
        self.len as usize
    }

    /// Where they end in the file.
    pub fn end(&self) -> u64 {
        self.at + u64::from(self.len)
    }

    /// Their place in bytes of the file that begin there, where they are among them.
    fn place_in(&self, window: &Window) -> Option<Range<usize>> {
        let begin = usize::try_from(self.at.checked_sub(window.at)?).ok()?;
        let range = begin..begin + self.len();
        (range.end <= window.bytes.len()).then_some(range)
    }
}

/// Bytes of a file that were read at once.
#[derive(Default)]
pub struct Window {
    at: u64,
    bytes: Vec<u8>,
    /// Where the last chunk of them begins that was compared with its checksum.
    checked: Option<u64>,
}

impl Window {
    /// The bytes of a chunk. Where they aren't here yet, they are read with those that follow up to an end.
    pub fn chunk(
        &mut self,
        chunk: &Chunk,
        end: impl FnOnce() -> u64,
        file: &File,
    ) -> Result<&[u8], RereadError> {
        let range = match chunk.place_in(self) {
            Some(range) => range,
            None => {
                self.read(chunk.at, end().max(chunk.end()) - chunk.at, file)?;
                0..chunk.len()
            }
        };
        let bytes = &self.bytes[range];
        if self.checked != Some(chunk.at) && crc32fast::hash(bytes) != chunk.checksum {
            return Err(RereadError::Changed);
        }
        self.checked = Some(chunk.at);
        Ok(bytes)
    }

    fn read(&mut self, at: u64, len: u64, file: &File) -> Result<(), RereadError> {
        (self.at, self.checked) = (at, None);
        self.bytes.resize(len as usize, 0);
        file.read_exact_at(&mut self.bytes, at).map_err(|why| {
            self.bytes.clear();
            match why.kind() {
                io::ErrorKind::UnexpectedEof => RereadError::Changed,
                _ => RereadError::File(why),
            }
        })
    }
}
