//! A recording of what passed between clients and a server: its format, what writes it, what reads it.
//!
//! All numbers are unsigned, the greatest byte first. A checksum is CRC-32 as zlib's `crc32` makes it.
//!
//! The head of the file, 24 bytes:
//!
//! ```text
//!  8  PGMSGREC
//!  4  the version of the format: 1
//!  8  when it began, in microseconds since 1970-01-01 UTC
//!  4  the checksum of the 20 bytes before
//! ```
//!
//! Records follow one after the other, in the order of what they tell; each is added by one write, alone or with others:
//!
//! ```text
//!  4  the length of the content in bytes, at most 1,048,576
//!  1  the kind, a letter
//!  4  the number of the connection: 1 for the first, and one more for each that is opened
//!  8  the time, in microseconds since the recording began; it never falls
//!  4  the checksum of the 17 bytes before
//!  n  the content
//!  4  the checksum of the content
//! ```
//!
//! The kinds:
//!
//! ```text
//!  O  A connection is opened: its first message is there. The content is the client's address as text,
//!     `[local]` over a Unix socket, or empty.
//!  F  The next bytes from the client, cut anywhere.
//!  B  The next bytes from the server, cut anywhere.
//!  f  A message from the client whose body is left out: a password, or one of SASL or GSSAPI. The content is its
//!     first five bytes, its tag and its length, where the next bytes of this direction would begin with them.
//!  b  The same from the server.
//!  E  What follows is encrypted; it is passed on and not recorded. The content is empty.
//!  C  The connection is closed. The content is a byte, F or B, for the side that closed first.
//! ```
//!
//! The bytes of a direction, joined, are the messages of the protocol: the client's begin with the one without a tag.
//! Those that ask for encryption, SSLRequest and GSSENCRequest, and the byte that answers them aren't recorded. Where a
//! side breaks the protocol, its bytes are recorded as they came. What is recorded had not passed before; a client or a
//! server may not have got the bytes of the last records. A connection without a C was open when the recorder ended.
//!
//! A file that ends within a record is whole up to the record before: a reader says so, and that is no fault. Faults are,
//! by the offset of the record: the checksum of its head; then a length above the most; a kind that isn't here; a content
//! of another length than its kind has; the checksum of the content; a C of neither side; a connection that is opened out
//! of turn, or isn't open. Nothing after a fault is read.
#![forbid(unsafe_code)]

mod connection_identity;
mod open_connections;
mod partial_file;
mod reader;
mod recorder;
mod writer;

pub use connection_identity::ConnectionIdentity;
pub use open_connections::OpenConnections;
pub use partial_file::{unnamed_file, PartialFile, PersistError};
pub use reader::{Damage, Reader, Record};
pub use recorder::{RecordError, Recorder};
pub use writer::Writer;

/// The bytes before the first record.
pub const HEAD: usize = 24;
/// The bytes before a content.
pub const RECORD_HEAD: usize = 21;
/// The bytes after it.
pub const RECORD_TAIL: usize = 4;
/// The longest content.
pub const MOST: usize = 1 << 20;
/// A tag and a length: the content of a message that is left out.
pub const MESSAGE_HEAD: usize = 5;

const MAGIC: &[u8; 8] = b"PGMSGREC";
const VERSION: u32 = 1;

/// A side of a connection.
#[derive(Clone, Copy, Debug, PartialEq, Eq, PartialOrd, Ord, Hash)]
pub enum Side {
    Client,
    Server,
}

/// What a record tells.
#[derive(Clone, Copy, Debug, PartialEq, Eq)]
pub enum RecordKind {
    Opened,
    Bytes(Side),
    LeftOut(Side),
    Encrypted,
    Closed,
}

impl RecordKind {
    pub const fn letter(self) -> u8 {
        match self {
            RecordKind::Opened => b'O',
            RecordKind::Bytes(Side::Client) => b'F',
            RecordKind::Bytes(Side::Server) => b'B',
            RecordKind::LeftOut(Side::Client) => b'f',
            RecordKind::LeftOut(Side::Server) => b'b',
            RecordKind::Encrypted => b'E',
            RecordKind::Closed => b'C',
        }
    }

    pub fn from_letter(letter: u8) -> Option<RecordKind> {
        Some(match letter {
            b'O' => RecordKind::Opened,
            b'F' => RecordKind::Bytes(Side::Client),
            b'B' => RecordKind::Bytes(Side::Server),
            b'f' => RecordKind::LeftOut(Side::Client),
            b'b' => RecordKind::LeftOut(Side::Server),
            b'E' => RecordKind::Encrypted,
            b'C' => RecordKind::Closed,
            _ => return None,
        })
    }

    /// Whether a content of this length is one of the kind.
    fn fits(self, len: usize) -> bool {
        match self {
            RecordKind::Opened | RecordKind::Bytes(_) => true,
            RecordKind::LeftOut(_) => len == MESSAGE_HEAD,
            RecordKind::Encrypted => len == 0,
            RecordKind::Closed => len == 1,
        }
    }
}

/// The head of a file that begins at a time, in microseconds since 1970.
fn file_head(begun: u64) -> [u8; HEAD] {
    let mut head = [0; HEAD];
    head[..8].copy_from_slice(MAGIC);
    head[8..12].copy_from_slice(&VERSION.to_be_bytes());
    head[12..20].copy_from_slice(&begun.to_be_bytes());
    let checksum = crc32(&head[..20]);
    head[20..].copy_from_slice(&checksum.to_be_bytes());
    head
}

/// The checksum of bytes. Most records are shorter than what the crate computes at once: zeros stand before them then, which
/// change nothing as long as no bit of the state is set. So their first four bytes are inverted, and not the state.
pub fn crc32(bytes: &[u8]) -> u32 {
    const AT_ONCE: usize = 128;
    if !(4..AT_ONCE).contains(&bytes.len()) {
        return crc32fast::hash(bytes);
    }
    let mut room = [0; AT_ONCE];
    let last = &mut room[AT_ONCE - bytes.len()..];
    last.copy_from_slice(bytes);
    last[..4].iter_mut().for_each(|byte| *byte = !*byte);
    let mut hasher = crc32fast::Hasher::new_with_initial(u32::MAX);
    hasher.update(&room);
    hasher.finalize()
}

/// Adds a record to bytes, whose content has that checksum.
pub fn put_record(
    out: &mut Vec<u8>,
    kind: RecordKind,
    connection: u32,
    time: u64,
    content: &[u8],
    checksum: u32,
) {
    out.extend_from_slice(&record_head(kind, connection, time, content.len()));
    out.extend_from_slice(content);
    out.extend_from_slice(&checksum.to_be_bytes());
}

/// The head of a record.
fn record_head(kind: RecordKind, connection: u32, time: u64, len: usize) -> [u8; RECORD_HEAD] {
    let mut head = [0; RECORD_HEAD];
    head[..4].copy_from_slice(&(len as u32).to_be_bytes());
    head[4] = kind.letter();
    head[5..9].copy_from_slice(&connection.to_be_bytes());
    head[9..17].copy_from_slice(&time.to_be_bytes());
    let checksum = crc32(&head[..17]);
    head[17..].copy_from_slice(&checksum.to_be_bytes());
    head
}

#[cfg(test)]
mod tests {
    use super::*;

    #[test]
    fn a_checksum_of_any_length_is_that_of_the_crate() {
        let bytes: Vec<u8> = (0..400_u32).map(|it| (it * it % 251) as u8).collect();
        for len in 0..=bytes.len() {
            assert_eq!(crc32(&bytes[..len]), crc32fast::hash(&bytes[..len]), "{len}");
        }
    }
}
