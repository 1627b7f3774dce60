//! A recording whose file gets its name at the end: until then another recording may have it.

use crate::options::RecordOptions;
use net::{ExitStatus, Failure};
use recording::PartialFile;
use std::fs;
use std::path::{Path, PathBuf};

/// A file beside the one of the name that it will have. It is removed unless it gets that.
pub struct ReplacedFile {
    partial: PartialFile,
    path: PathBuf,
}

fn unrecorded(path: &Path, why: impl std::fmt::Display) -> Failure {
    Failure::new(ExitStatus::Unrecorded, format!("{} {why}", path.display()))
}

impl ReplacedFile {
    /// That of a command, or what replaces a recording. What isn't a regular file, such as a pipe, is written as it is.
    pub fn of(options: &RecordOptions) -> Result<Option<ReplacedFile>, Failure> {
        let is_wanted = options.replace || !options.command.is_empty();
        let Some(path) = options.output.as_ref().filter(|_| is_wanted) else {
            return Ok(None);
        };
        match fs::metadata(path) {
            Ok(it) if !it.is_file() => return Ok(None),
            Ok(it) if it.len() > 0 && !options.replace => {
                return Err(unrecorded(
                    path,
                    "has something in it: --replace has a new recording take its place",
                ))
            }
            _ => {}
        }
        let partial = PartialFile::beside(path);
        let partial =
            partial.map_err(|why| unrecorded(path, format!("can't be written: {why}")))?;
        Ok(Some(ReplacedFile { partial, path: path.clone() }))
    }

    /// The name of the file until then.
    pub fn path(&self) -> &Path {
        self.partial.path()
    }

    /// Gives the file its name.
    pub fn persist(self) -> Result<(), Failure> {
        self.partial.persist().map_err(|why| unrecorded(&self.path, why))
    }
}
