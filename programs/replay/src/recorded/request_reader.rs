//! Reading what clients said, which goes on from record to record.

use super::requests::{ChunkOffset, ClientChunk};
use super::{Recording, RereadError, Window};

/// Reads what a client said on from a place.
pub struct RequestReader {
    place: ChunkOffset,
    window: Window,
}

impl RequestReader {
    pub fn new(place: ChunkOffset) -> RequestReader {
        RequestReader { place, window: Window::default() }
    }

    pub fn place(&self) -> ChunkOffset {
        self.place
    }

    /// The next bytes, as many as there are in a record. There are none at the end of the recording.
    pub fn next<'a>(&'a mut self, recording: &Recording) -> Result<&'a [u8], RereadError> {
        loop {
            let Some(ClientChunk { chunk, .. }) =
                recording.requests.chunks.get(self.place.chunk as usize)
            else {
                return Ok(&[]);
            };
            if (self.place.at as usize) < chunk.len() {
                let bytes = self.window.chunk(chunk, || chunk.end(), &recording.file)?;
                return Ok(&bytes[self.place.at as usize..]);
            }
            self.place = ChunkOffset { chunk: self.place.chunk + 1, at: 0 };
        }
    }

    /// Passes over some of these bytes.
    pub fn pass(&mut self, count: usize) {
        self.place.at += count as u32;
    }

    pub(super) fn fill(
        &mut self,
        recording: &Recording,
        mut bytes: &mut [u8],
    ) -> Result<(), RereadError> {
        while !bytes.is_empty() {
            let next = self.next(recording)?;
            let count = next.len().min(bytes.len());
            if count == 0 {
                return Ok(());
            }
            bytes[..count].copy_from_slice(&next[..count]);
            bytes = &mut bytes[count..];
            self.pass(count);
        }
        Ok(())
    }
}
