//! What build scripts have in common that make crates of the repository modules of another crate.

use crate::{erase_folder, CStructs, Names, Refusal, Root};
use std::path::{Path, PathBuf};
use std::{env, fs, process};

/// The crates that messages need, from the lowest to the highest, which has all public names.
pub const CRATES: [&str; 9] = [
    "pg_base",
    "pg_format",
    "pg_send",
    "pg_receive",
    "pg_server",
    "pg_replication",
    "pg_frames",
    "pg_flow",
    "pg_message",
];

/// The folder that a build script is told by a variable, such as `OUT_DIR`.
pub fn cargo_folder(variable: &str) -> PathBuf {
    env::var_os(variable).unwrap_or_else(|| panic!("cargo sets {variable}")).into()
}

/// Ends a build script where a source is refused.
pub fn or_exit<T>(erased: Result<T, Refusal>) -> T {
    erased.unwrap_or_else(|refusal| {
        eprintln!("{refusal}");
        process::exit(1)
    })
}

/// Writes `crates.rs`, which declares modules, to the folder for what is built. Their sources are in `src/erased` of a
/// package; otherwise `erase` puts them into the folder, of the sources of the repository.
pub fn write_modules(names: &[&str], erase: impl FnOnce(&Path, &Path) -> Result<(), Refusal>) {
    let (manifest, out) = (cargo_folder("CARGO_MANIFEST_DIR"), cargo_folder("OUT_DIR"));
    let packed = manifest.join("src/erased");
    let erased = if packed.is_dir() {
        packed
    } else {
        or_exit(erase(&manifest.join("../.."), &out));
        out.clone()
    };
    fs::write(out.join("crates.rs"), modules(&erased, names))
        .expect("the folder for what is built can be written");
}

/// Erases crates of the repository into modules of the crate that is built. `c_structs` has the structs that C fills of
/// a crate, by its name and its sources.
pub fn erase_crates(
    crates: &[&str],
    repository: &Path,
    out: &Path,
    mut c_structs: impl FnMut(&str, &Path) -> Result<CStructs, Refusal>,
) -> Result<(), Refusal> {
    for name in crates {
        let source = repository.join("crates").join(name).join("src");
        println!("cargo:rerun-if-changed={}", source.display());
        let names = Names::new().own(&format!("crate::{name}")).others(crates, "crate");
        let names = names.with_c_structs(c_structs(name, &source)?);
        erase_folder(&source, &out.join(name), Root::Module, &names)?;
    }
    Ok(())
}

/// The declarations of modules whose sources lie in a folder.
fn modules(erased: &Path, names: &[&str]) -> String {
    let roots = names.iter().map(|name| (name, erased.join(name).join("mod.rs")));
    roots.map(|(name, root)| format!("#[path = {root:?}]\npub mod {name};\n")).collect()
}

#[cfg(test)]
mod tests {
    use super::*;

    #[test]
    fn modules_are_declared() {
        assert_eq!(modules(Path::new("/x"), &["a"]), "#[path = \"/x/a/mod.rs\"]\npub mod a;\n");
    }
}
