//! A file that is written beside the one whose place it takes once all of it is there.

use rustix::fs::{flock, FlockOperation};
use std::ffi::OsString;
use std::fs::{self, File};
use std::io;
use std::os::unix::fs::MetadataExt;
use std::path::{Path, PathBuf};
use tempfile::{tempfile_in, Builder, TempPath};

/// How many links a path may lead by, as on Linux.
const LINKS: usize = 40;

/// A file without the name that it will have. Nobody else may read the file, which is removed unless it gets that name.
pub struct PartialFile {
    part: TempPath,
    path: PathBuf,
    /// The version of the file of that name when this one was begun.
    before: Option<FileVersion>,
}

/// Why a file doesn't get its name.
#[derive(Debug, thiserror::Error)]
pub enum PersistError {
    #[error("was changed by another program meanwhile")]
    Changed,
    #[error("can't be written: {0}")]
    File(#[from] io::Error),
}

/// What differs between any two versions of a file, since each is either written anew or a file of its own.
type FileVersion = (u64, u64, u64, i64, i64);

fn version(path: &Path) -> io::Result<Option<FileVersion>> {
    match fs::metadata(path) {
        Ok(it) => Ok(Some((it.dev(), it.ino(), it.len(), it.mtime(), it.mtime_nsec()))),
        Err(why) if why.kind() == io::ErrorKind::NotFound => Ok(None),
        Err(why) => Err(why),
    }
}

/// The folder of a file.
fn folder(path: &Path) -> &Path {
    path.parent().filter(|it| !it.as_os_str().is_empty()).unwrap_or_else(|| Path::new("."))
}

/// The file that a path leads to by links, also where there is none yet.
fn followed(path: &Path) -> PathBuf {
    let mut path = path.to_owned();
    for _ in 0..LINKS {
        match fs::read_link(&path) {
            Ok(link) => path = folder(&path).join(link),
            Err(_) => break,
        }
    }
    path
}

/// A file in the folder of a path that has no name, and is gone with the process.
pub fn unnamed_file(path: &Path) -> io::Result<File> {
    tempfile_in(folder(path))
}

impl PartialFile {
    /// Begins an empty file, which `append` opens, beside the one that a path leads to, also by links.
    pub fn beside(path: &Path) -> io::Result<PartialFile> {
        let path = fs::canonicalize(path).unwrap_or_else(|_| followed(path));
        let before = version(&path)?;
        let mut name = OsString::from(path.file_name().unwrap_or_default());
        name.push(".");
        let part = Builder::new().prefix(&name).tempfile_in(folder(&path))?.into_temp_path();
        Ok(PartialFile { part, path, before })
    }

    /// The name of the file until then.
    pub fn path(&self) -> &Path {
        &self.part
    }

    /// Gives the file its name, unless the file that had the name isn't the one any more that had it at the beginning. The
    /// programs that do so take turns.
    pub fn persist(self) -> Result<(), PersistError> {
        if self.before.is_some() {
            // After a crash of the system there is either file, and not an empty one.
            File::open(&self.part)?.sync_all()?;
        }
        let folder = File::open(folder(&self.path))?;
        flock(&folder, FlockOperation::LockExclusive).map_err(io::Error::from)?;
        if version(&self.path)? != self.before {
            return Err(PersistError::Changed);
        }
        self.part.persist(&self.path).map_err(|why| why.error.into())
    }
}

#[cfg(test)]
mod tests {
    use super::*;
    use std::os::unix::fs::symlink;
    use tempfile::tempdir;

    #[test]
    fn a_link_stays_whether_or_not_its_file_is_there() {
        let folder = tempdir().unwrap();
        let (link, path) = (folder.path().join("link"), folder.path().join("some"));
        symlink("other", &link).unwrap();
        symlink(&path, folder.path().join("other")).unwrap();
        for words in ["one", "other"] {
            let part = PartialFile::beside(&link).unwrap();
            fs::write(part.path(), words).unwrap();
            part.persist().unwrap();
            assert_eq!(fs::read_link(&link).unwrap(), Path::new("other"));
            assert!(fs::symlink_metadata(&path).unwrap().is_file());
            assert_eq!(fs::read_to_string(&path).unwrap(), words);
        }
    }

    #[test]
    fn a_file_that_another_program_has_changed_keeps_its_name() {
        let folder = tempdir().unwrap();
        let path = folder.path().join("some");
        for before in [false, true] {
            let (one, other) =
                (PartialFile::beside(&path).unwrap(), PartialFile::beside(&path).unwrap());
            assert_ne!(one.path(), other.path());
            fs::write(one.path(), "one").unwrap();
            fs::write(other.path(), "other").unwrap();
            assert_eq!(path.exists(), before);
            one.persist().unwrap();
            assert!(matches!(other.persist(), Err(PersistError::Changed)));
            assert_eq!(fs::read_to_string(&path).unwrap(), "one");
            assert_eq!(fs::read_dir(folder.path()).unwrap().count(), 1);
        }
    }
}
