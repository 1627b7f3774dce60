//! A recording from JSON Lines.

use crate::failure::{Result, TapeFailure, TapeStatus};
use crate::layout::LayoutReader;
use crate::line::{write, HeaderFields, LineContent, LinePosition, VERSION};
use crate::output::Output;
use crate::parse::{self, ParsedLine};
use crate::progress::Progress;
use crate::record_assembler::{AssembleError, RecordAssembler, RecordPosition};
use crate::recording_file::open;
use lines::escape;
use memchr::memchr;
use recording::{RecordKind, Side};
use std::io::{self, BufRead, BufReader, Read};
use std::mem;
use std::path::Path;

const ROOM: usize = 1 << 17;
/// The longest line. One of an export has less than half of it.
const LONGEST: usize = 32 << 20;

/// What is wrong with a line.
#[derive(Debug, thiserror::Error)]
enum LineError {
    #[error("{0}")]
    Json(serde_json::Error),
    #[error("{0}")]
    Assemble(#[from] AssembleError),
    #[error("the message can't be written: {0}")]
    Refused(#[from] pgmsg::Refusal),
    #[error("{0}")]
    Other(&'static str),
}

/// Reads lines, and makes records of them.
struct Importer<'o> {
    out: Option<&'o mut Output>,
    assembler: Option<RecordAssembler<&'o mut Output>>,
    message: Vec<u8>,
    reader: LayoutReader,
    tail: Vec<u8>,
}

pub fn import(path: &Path, to: &Path) -> Result<()> {
    let file = BufReader::with_capacity(ROOM, Progress::new("import", &[path]).on(open(path)?));
    let mut lines = LineReader { file, passed: 0, line: Vec::new() };
    let mut out = Output::create(to)?;
    let tail = read(&mut lines, &mut out, path, to)?;
    out.put(&tail)?;
    out.end()
}

/// The lines of a file.
struct LineReader<R> {
    file: BufReader<R>,
    /// How long the last line is, where it lies in the file's buffer.
    passed: usize,
    /// One that doesn't.
    line: Vec<u8>,
}

impl<R: Read> LineReader<R> {
    /// The next line, or its front where it is too long; none at the end.
    fn next(&mut self) -> io::Result<&[u8]> {
        self.file.consume(mem::take(&mut self.passed));
        if let Some(end) = self.file.fill_buf().map_or(None, |it| memchr(b'\n', it)) {
            self.passed = end + 1;
            return Ok(&self.file.buffer()[..=end]);
        }
        self.line.clear();
        self.file.by_ref().take(LONGEST as u64 + 1).read_until(b'\n', &mut self.line)?;
        Ok(&self.line)
    }
}

/// Reads all lines, and gives what follows the last whole record.
fn read(
    lines: &mut LineReader<impl Read>,
    out: &mut Output,
    path: &Path,
    to: &Path,
) -> Result<Vec<u8>> {
    let mut import = Importer {
        out: Some(out),
        assembler: None,
        message: Vec::new(),
        reader: LayoutReader::default(),
        tail: Vec::new(),
    };
    let mut number = 0_u64;
    loop {
        number += 1;
        let line = lines.next().map_err(|why| TapeFailure::unread(path, &why))?;
        let taken = match line.is_empty() {
            true => import.end(),
            false => import.line(line),
        };
        taken.map_err(|wrong| fault(&wrong, path, to, number))?;
        if line.is_empty() {
            return Ok(import.tail);
        }
    }
}

/// A fault by the number of its line.
fn fault(wrong: &LineError, path: &Path, to: &Path, number: u64) -> TapeFailure {
    let path = path.display();
    let words = match wrong {
        LineError::Assemble(AssembleError::File(why)) => return TapeFailure::unwritten(to, why),
        LineError::Json(why) => {
            let (words, column) = (why.to_string(), why.column());
            let words = words.split(" at line ").next().unwrap_or_default();
            // They quote names of the file.
            format!("{path}: line {number}, column {column}: {}", escape(words.as_bytes()))
        }
        _ => format!("{path}: line {number}: {wrong}"),
    };
    TapeFailure::new(TapeStatus::Damaged, words)
}

impl Importer<'_> {
    /// Takes a line.
    fn line(&mut self, bytes: &[u8]) -> std::result::Result<(), LineError> {
        if bytes.len() > LONGEST {
            return Err(LineError::Other("it is longer than 32 MiB"));
        }
        if let (Some(assembler), []) = (&mut self.assembler, &self.tail[..]) {
            self.message.clear();
            if let Some(position) = self.reader.take(bytes, &mut self.message) {
                return Ok(assembler.message(position, &self.message, None)?);
            }
        }
        if bytes.iter().all(u8::is_ascii_whitespace) {
            return Ok(());
        }
        let text = std::str::from_utf8(bytes).map_err(|_| LineError::Other("it is no UTF-8"))?;
        match parse::read(text) {
            Ok(line) => self.take(&line),
            Err(why) => {
                let ordered = parse::ordered(text).ok_or(LineError::Json(why))?;
                self.take(&parse::read(&ordered).map_err(LineError::Json)?)
            }
        }
    }

    /// Takes a line that was read.
    fn take(&mut self, line: &ParsedLine<'_>) -> std::result::Result<(), LineError> {
        let ParsedLine { position, content } = line;
        let here = position.here;
        if !self.tail.is_empty() {
            return Err(LineError::Other("nothing follows a line of the kind `Cut`"));
        }
        let assembler = match (content, &mut self.assembler) {
            (LineContent::Recording(head), None) => return self.begin(head),
            (LineContent::Recording(_), Some(_)) => {
                return Err(LineError::Other("the recording has begun before"))
            }
            (_, None) => {
                return Err(LineError::Other("the first line isn't of the kind `Recording`"))
            }
            (_, Some(assembler)) => assembler,
        };
        let position = record_position(*position);
        let RecordPosition { connection, time, side, .. } = position;
        match content {
            LineContent::Opened(it) => {
                assembler.record(RecordKind::Opened, connection, time, &it.address.0)?
            }
            LineContent::Encrypted(_) => {
                assembler.record(RecordKind::Encrypted, connection, time, b"")?
            }
            LineContent::Closed(it) => {
                assembler.record(RecordKind::Closed, connection, time, closed_by(it.by))?
            }
            LineContent::LeftOut(it) => {
                let mut head = vec![it.tag.0];
                head.extend_from_slice(&it.length.to_be_bytes());
                assembler.record(RecordKind::LeftOut(side), connection, time, &head)?;
            }
            LineContent::Continued(_) => assembler.go_on(position, here)?,
            LineContent::Bytes(it) => assembler.message(position, &it.data.0, here)?,
            LineContent::Cut(it) => self.tail = it.data.0.to_vec(),
            LineContent::Client(_) | LineContent::Server(_) | LineContent::Recording(_) => {
                self.message.clear();
                write(content, &mut self.message)?;
                assembler.message(position, &self.message, here)?;
            }
        }
        Ok(())
    }

    fn begin(&mut self, head: &HeaderFields) -> std::result::Result<(), LineError> {
        if head.version != VERSION {
            return Err(LineError::Other("the format has version 1 here"));
        }
        if let Some(out) = self.out.take() {
            self.assembler =
                Some(RecordAssembler::new(out, head.begun).map_err(AssembleError::from)?);
        }
        Ok(())
    }

    /// Takes the end of the file.
    fn end(&mut self) -> std::result::Result<(), LineError> {
        match self.assembler.take() {
            Some(assembler) => Ok(assembler.end().map(drop)?),
            None => Err(LineError::Other("there is no line")),
        }
    }
}

/// Where a line stands, of which the parts that its kind has not don't matter.
fn record_position(position: LinePosition) -> RecordPosition {
    RecordPosition {
        connection: position.connection.unwrap_or_default(),
        time: position.time.unwrap_or_default(),
        side: position.side.unwrap_or(Side::Client),
        begins: position.apart,
    }
}

/// The content of a record that tells which side closed first.
pub fn closed_by(side: Side) -> &'static [u8] {
    match side {
        Side::Client => b"F",
        Side::Server => b"B",
    }
}
