//! A recording that is made of records which are there.

use crate::{crc32, file_head, put_record, RecordKind};
use std::io::{self, Write};

/// A recording that is written from records whose times are known.
pub struct Writer<W: Write> {
    out: W,
    bytes: Vec<u8>,
}

impl<W: Write> Writer<W> {
    pub fn new(mut out: W, begun: u64) -> io::Result<Writer<W>> {
        out.write_all(&file_head(begun))?;
        Ok(Writer { out, bytes: Vec::new() })
    }

    pub fn add(
        &mut self,
        kind: RecordKind,
        connection: u32,
        time: u64,
        content: &[u8],
    ) -> io::Result<()> {
        self.bytes.clear();
        let checksum = crc32(content);
        put_record(&mut self.bytes, kind, connection, time, content, checksum);
        self.out.write_all(&self.bytes)
    }

    /// Gives what it was written to, to which all is written then.
    pub fn end(mut self) -> io::Result<W> {
        self.out.flush()?;
        Ok(self.out)
    }
}
