//! Where output goes: standard output, or a file that has it only when all of it is there.

use crate::failure::{Result, TapeFailure, TapeStatus};
use recording::PartialFile;
use std::fs::{self, File, Metadata, OpenOptions};
use std::io::{self, BufWriter, Write};
use std::os::unix::fs::MetadataExt;
use std::os::unix::io::AsFd;
use std::path::{Path, PathBuf};

/// How much is written at once.
const ROOM: usize = 1 << 17;

/// A recording or an export of one may hold secrets: nobody else may read the file.
pub struct Output {
    writer: BufWriter<Box<dyn Write>>,
    partial: Option<PartialFile>,
    path: PathBuf,
}

/// A file that is open only while it is written, so that any number of them can be at hand.
struct ReopenedFile(PathBuf);

impl Write for ReopenedFile {
    fn write(&mut self, bytes: &[u8]) -> io::Result<usize> {
        OpenOptions::new().append(true).open(&self.0)?.write(bytes)
    }

    fn flush(&mut self) -> io::Result<()> {
        Ok(())
    }
}

/// Whether a file is the one that standard output goes to, which a path like /dev/stdout leads to.
fn is_stdout(file: &Metadata) -> bool {
    let stdout = io::stdout().as_fd().try_clone_to_owned().map(File::from);
    let is_same = |it: Metadata| (it.dev(), it.ino()) == (file.dev(), file.ino());
    stdout.and_then(|it| it.metadata()).is_ok_and(is_same)
}

impl Output {
    /// Output to a file, which takes the place of one that is there. It is begun before what another file has is read, so that
    /// this one may have it, too.
    pub fn create(path: &Path) -> Result<Output> {
        Output::with_room(path, ROOM)
    }

    /// The same, where so many bytes are written at once.
    pub fn with_room(path: &Path, room: usize) -> Result<Output> {
        let failed = |why| TapeFailure::unwritten(path, &why);
        let (file, partial): (Box<dyn Write>, _) = match fs::metadata(path) {
            Ok(it) if is_stdout(&it) => return Ok(Output::to_stdout()),
            Ok(it) if !it.is_file() => {
                (Box::new(OpenOptions::new().write(true).open(path).map_err(failed)?), None)
            }
            _ => {
                let partial = PartialFile::beside(path).map_err(failed)?;
                (Box::new(ReopenedFile(partial.path().to_owned())), Some(partial))
            }
        };
        let writer = BufWriter::with_capacity(room, file);
        Ok(Output { writer, partial, path: path.to_owned() })
    }

    fn to_stdout() -> Output {
        Output {
            writer: BufWriter::with_capacity(ROOM, Box::new(io::stdout())),
            partial: None,
            path: "standard output".into(),
        }
    }

    /// Output to a file, or to standard output where none is named.
    pub fn to(path: Option<&Path>) -> Result<Output> {
        path.map_or_else(|| Ok(Output::to_stdout()), Output::create)
    }

    /// Writes bytes.
    pub fn put(&mut self, bytes: &[u8]) -> Result<()> {
        self.writer.write_all(bytes).map_err(|why| TapeFailure::unwritten(&self.path, &why))
    }

    /// Writes what is left, and gives the file its name.
    pub fn end(mut self) -> Result<()> {
        self.writer.flush().map_err(|why| TapeFailure::unwritten(&self.path, &why))?;
        let named = self.partial.take().map_or(Ok(()), PartialFile::persist);
        named.map_err(|why| {
            TapeFailure::new(TapeStatus::Local, format!("{} {why}", self.path.display()))
        })
    }
}

impl Write for Output {
    fn write(&mut self, bytes: &[u8]) -> io::Result<usize> {
        self.writer.write(bytes)
    }

    fn flush(&mut self) -> io::Result<()> {
        self.writer.flush()
    }
}
