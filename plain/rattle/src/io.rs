//! Input and output. A `Vec` is written at its end.

use crate::alloc::AllocError;
use crate::vec::Vec;

pub use std::io::{Error, ErrorKind, Result, Stderr, Stdin, Stdout, Write};

// How much is read at a time.
const PIECE: usize = 8192;

/// Where bytes are read from.
pub trait Read {
    /// Reads some bytes to the front of a buffer: how many.
    fn read(&mut self, buf: &mut [u8]) -> Result<usize>;

    /// Adds all bytes up to the end: how many.
    fn read_to_end(&mut self, bytes: &mut Vec<u8>) -> Result<usize> {
        let (begun, mut piece) = (bytes.len(), [0; PIECE]);
        loop {
            match self.read(&mut piece) {
                Ok(0) => return Ok(bytes.len() - begun),
                Ok(count) => bytes.extend_from_slice(&piece[..count])?,
                Err(error) if error.kind() == ErrorKind::Interrupted => {}
                Err(error) => return Err(error),
            }
        }
    }
}

impl Read for Stdin {
    fn read(&mut self, buf: &mut [u8]) -> Result<usize> {
        std::io::Read::read(self, buf)
    }
}

impl Read for &[u8] {
    fn read(&mut self, buf: &mut [u8]) -> Result<usize> {
        std::io::Read::read(self, buf)
    }
}

impl From<AllocError> for Error {
    fn from(_: AllocError) -> Self {
        Error::from(ErrorKind::OutOfMemory)
    }
}

impl Write for Vec<u8> {
    fn write(&mut self, bytes: &[u8]) -> Result<usize> {
        self.extend_from_slice(bytes)?;
        Ok(bytes.len())
    }

    fn flush(&mut self) -> Result<()> {
        Ok(())
    }
}
