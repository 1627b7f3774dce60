//! The sources of a crate.

use crate::{erase, CStructs, Names, Refusal};
use std::fs;
use std::path::{Path, PathBuf};

/// What the root of a crate is called in what comes out.
#[derive(Clone, Copy, Debug, PartialEq, Eq)]
pub enum Root {
    /// As in the source: `lib.rs` or `main.rs`.
    Crate,
    /// `mod.rs`: the crate becomes a module of another.
    Module,
}

/// Erases each `.rt` file of a folder and those within it, and each `.rt.in` file, which is a test: the sources that were
/// read. Files of laws are left out, as they are proofs.
pub fn erase_folder(
    source: &Path,
    target: &Path,
    root: Root,
    names: &Names,
) -> Result<Vec<PathBuf>, Refusal> {
    let mut read = Vec::new();
    for file in files(source)? {
        let inner = file.strip_prefix(source).unwrap_or(&file);
        let Some(stem) = inner.to_str().and_then(stem) else { continue };
        let stem = match stem {
            "lib" | "main" if root == Root::Module => "mod",
            _ => stem,
        };
        let text = fs::read_to_string(&file).map_err(|error| Refusal::of_file(&file, error))?;
        let erased =
            erase(&text, names).map_err(|refusal| Refusal { file: file.clone(), ..refusal })?;
        let out = target.join(stem).with_extension("rs");
        let folder = out.parent().unwrap_or(target);
        fs::create_dir_all(folder).map_err(|error| Refusal::of_file(folder, error))?;
        fs::write(&out, erased).map_err(|error| Refusal::of_file(&out, error))?;
        read.push(file);
    }
    Ok(read)
}

/// The structs that C fills in the sources of a folder.
pub fn c_structs_of_folder(source: &Path) -> Result<CStructs, Refusal> {
    let mut all = CStructs::default();
    for file in files(source)? {
        if file.extension().is_some_and(|ending| ending == "rt") {
            let text = fs::read_to_string(&file).map_err(|error| Refusal::of_file(&file, error))?;
            all = all.and(CStructs::of(&text).map_err(|refusal| Refusal { file, ..refusal })?);
        }
    }
    Ok(all)
}

// The path of a source without its ending; nothing for a file of laws or of something else.
fn stem(path: &str) -> Option<&str> {
    let stem = path.strip_suffix(".rt").or_else(|| path.strip_suffix(".rt.in"))?;
    let is_law = stem.split('/').any(|part| part == "laws");
    (!is_law).then_some(stem)
}

// All files of a folder and of those within it, in order.
fn files(folder: &Path) -> Result<Vec<PathBuf>, Refusal> {
    let of_folder = |error| Refusal::of_file(folder, error);
    let mut all = Vec::new();
    for entry in fs::read_dir(folder).map_err(of_folder)? {
        let path = entry.map_err(of_folder)?.path();
        match path.is_dir() {
            true => all.extend(files(&path)?),
            false => all.push(path),
        }
    }
    all.sort();
    Ok(all)
}
