//! A recording that is read.

use crate::{
    crc32, OpenConnections, RecordKind, Side, HEAD, MAGIC, MOST, RECORD_HEAD, RECORD_TAIL, VERSION,
};
use std::io::{self, Read};
use std::path::Path;

/// A record, whose content is valid until the next one is read.
#[derive(Clone, Copy, Debug)]
pub struct Record<'a> {
    pub kind: RecordKind,
    pub connection: u32,
    /// In microseconds since the recording began.
    pub time: u64,
    /// Where the content begins in the file.
    pub content_at: u64,
    pub content: &'a [u8],
    /// That of the content.
    pub checksum: u32,
}

/// Why a recording can't be read on. What it shows follows the file's name; `about` puts both together.
#[derive(Debug, thiserror::Error)]
pub enum Damage {
    #[error("is no recording: {0}")]
    NotRecording(&'static str),
    #[error("offset 0: the checksum of the file's head is wrong")]
    Head,
    #[error("its format has version {0}, and 1 is known here")]
    Version(u32),
    #[error("the record at offset {at}: {what}")]
    Record { at: u64, what: &'static str },
    #[error("can't be read: {0}")]
    File(#[from] io::Error),
}

impl Damage {
    /// The words for the file of a name.
    pub fn about(&self, path: &Path) -> String {
        let colon = match self {
            Damage::NotRecording(_) | Damage::File(_) => "",
            _ => ":",
        };
        format!("{}{colon} {self}", path.display())
    }
}

/// Reads the records of a recording, in their order.
pub struct Reader<R> {
    file: R,
    at: u64,
    begun: u64,
    is_cut: bool,
    connections: OpenConnections,
    content: Vec<u8>,
}

/// A number of four bytes that are there.
fn four(bytes: &[u8]) -> u32 {
    bytes.try_into().map_or(0, u32::from_be_bytes)
}

/// A number of eight bytes that are there.
fn eight(bytes: &[u8]) -> u64 {
    bytes.try_into().map_or(0, u64::from_be_bytes)
}

/// The head of a record whose checksum is right.
struct RecordHead {
    kind: RecordKind,
    connection: u32,
    time: u64,
    len: usize,
}

impl RecordHead {
    fn read(head: &[u8; RECORD_HEAD]) -> Result<RecordHead, &'static str> {
        if four(&head[17..]) != crc32(&head[..17]) {
            return Err("the checksum of its head is wrong");
        }
        let len = four(&head[..4]) as usize;
        if len > MOST {
            return Err("its content is longer than one may be");
        }
        let kind = RecordKind::from_letter(head[4]).ok_or("its kind is unknown")?;
        if !kind.fits(len) {
            return Err("its content isn't as long as its kind has it");
        }
        Ok(RecordHead { kind, connection: four(&head[5..9]), time: eight(&head[9..17]), len })
    }
}

impl<R: Read> Reader<R> {
    /// Reads the head of a file.
    pub fn new(mut file: R) -> Result<Reader<R>, Damage> {
        let mut head = [0; HEAD];
        if fill(&mut file, &mut head)? < HEAD {
            return Err(Damage::NotRecording("it has no 24 bytes"));
        }
        if &head[..8] != MAGIC {
            return Err(Damage::NotRecording("it doesn't begin with PGMSGREC"));
        }
        if four(&head[20..]) != crc32(&head[..20]) {
            return Err(Damage::Head);
        }
        match four(&head[8..12]) {
            VERSION => {}
            version => return Err(Damage::Version(version)),
        }
        Ok(Reader {
            file,
            at: HEAD as u64,
            begun: eight(&head[12..20]),
            is_cut: false,
            connections: OpenConnections::default(),
            content: Vec::new(),
        })
    }

    /// When it began, in microseconds since 1970.
    pub fn begun(&self) -> u64 {
        self.begun
    }

    /// The offset of the next record, or of the end of the last whole one.
    pub fn at(&self) -> u64 {
        self.at
    }

    /// Whether the file ends within a record, which is known at the end.
    pub fn is_cut(&self) -> bool {
        self.is_cut
    }

    /// The next record, or `None` at the end. (No `Iterator`: a record borrows the reader.)
    pub fn read(&mut self) -> Result<Option<Record<'_>>, Damage> {
        let at = self.at;
        let fault = |what| Damage::Record { at, what };
        let mut bytes = [0; RECORD_HEAD];
        match fill(&mut self.file, &mut bytes)? {
            0 => return Ok(None),
            RECORD_HEAD => {}
            _ => return self.cut(),
        }
        let head = RecordHead::read(&bytes).map_err(fault)?;
        self.content.resize(head.len + RECORD_TAIL, 0);
        if fill(&mut self.file, &mut self.content)? < self.content.len() {
            return self.cut();
        }
        self.check(&head).map_err(fault)?;
        self.at += (RECORD_HEAD + self.content.len()) as u64;
        Ok(Some(Record {
            kind: head.kind,
            connection: head.connection,
            time: head.time,
            content_at: at + RECORD_HEAD as u64,
            content: &self.content[..head.len],
            checksum: four(&self.content[head.len..]),
        }))
    }

    fn cut(&mut self) -> Result<Option<Record<'_>>, Damage> {
        self.is_cut = true;
        Ok(None)
    }

    /// Whether a content is as its head has it, and its connection in turn.
    fn check(&mut self, head: &RecordHead) -> Result<(), &'static str> {
        let (content, checksum) = self.content.split_at(head.len);
        if four(checksum) != crc32(content) {
            return Err("the checksum of its content is wrong");
        }
        self.connections.take(head.kind, head.connection, content)
    }
}

impl Record<'_> {
    /// The side that closed the connection first, where that is what it tells.
    pub fn closed_by(&self) -> Option<Side> {
        match (self.kind, self.content) {
            (RecordKind::Closed, b"F") => Some(Side::Client),
            (RecordKind::Closed, _) => Some(Side::Server),
            _ => None,
        }
    }
}

/// Reads as many bytes as there is room for, or up to the end of the file.
fn fill(file: &mut impl Read, room: &mut [u8]) -> io::Result<usize> {
    let mut count = 0;
    while count < room.len() {
        match file.read(&mut room[count..]) {
            Ok(0) => break,
            Ok(more) => count += more,
            Err(why) if why.kind() == io::ErrorKind::Interrupted => {}
            Err(why) => return Err(why),
        }
    }
    Ok(count)
}

#[cfg(test)]
mod tests {
    use super::*;
    use crate::{file_head, put_record};

    /// A recording, and where its records begin and end.
    fn recording() -> (Vec<u8>, Vec<usize>) {
        let records: [(RecordKind, &[u8]); 5] = [
            (RecordKind::Opened, b"[local]"),
            (RecordKind::Bytes(Side::Client), b"\0\0\0\x08\x04\xd2\x16\x2f"),
            (RecordKind::LeftOut(Side::Client), b"p\0\0\0\x0b"),
            (RecordKind::Bytes(Side::Server), b"Z\0\0\0\x05I"),
            (RecordKind::Closed, b"F"),
        ];
        let mut bytes = file_head(1).to_vec();
        let mut offsets = vec![bytes.len()];
        for (kind, content) in records {
            put_record(&mut bytes, kind, 1, 2, content, crc32(content));
            offsets.push(bytes.len());
        }
        (bytes, offsets)
    }

    /// Reads to the end: up to where, and whether it ends within a record.
    fn read_all(bytes: &[u8]) -> Result<(u64, bool), Damage> {
        let mut reader = Reader::new(bytes)?;
        while reader.read()?.is_some() {}
        Ok((reader.at(), reader.is_cut()))
    }

    #[test]
    fn each_changed_bit_is_refused_at_its_record() {
        let (bytes, offsets) = recording();
        for bit in 0..8 * bytes.len() {
            let mut changed = bytes.clone();
            changed[bit / 8] ^= 1 << (bit % 8);
            let offset = offsets.iter().rfind(|offset| **offset <= bit / 8);
            match (read_all(&changed), offset) {
                (Err(Damage::Record { at, .. }), Some(offset)) => assert_eq!(at, *offset as u64),
                (Err(Damage::Head | Damage::NotRecording(_)), None) => {}
                (read, _) => panic!("a change of bit {bit} is read as {read:?}"),
            }
        }
    }

    #[test]
    fn each_length_is_read_to_its_last_whole_record() {
        let (bytes, offsets) = recording();
        for length in HEAD..=bytes.len() {
            let last = offsets.iter().rfind(|offset| **offset <= length).unwrap();
            let read = read_all(&bytes[..length]).unwrap();
            assert_eq!(read, (*last as u64, *last < length));
        }
    }
}
