//! Takes the contracts and proofs out of Rattle sources, and leaves Rust.
//!
//! Rattle is Rust with contracts. What the prover reads goes: `ghost` items and fields, `requires` and `ensures`,
//! implementations of `Model`, tactics and modules of laws. What differs from Rust becomes calls of a crate `rattle`, which
//! stands in for the toolchain's library. All else stays as it is, with its comments and layout, but for two changes by which
//! rustc tests less: slices that are required to have one length are tested for that once, and four bytes in a row are put as
//! one number. What the eraser doesn't know it refuses, with the file and the line.

#![forbid(unsafe_code)]
#![warn(missing_docs)]

mod attributes;
mod c_structs;
mod code;
mod docs;
mod edits;
mod eraser;
mod exports;
mod folder;
mod functions;
mod imports;
mod items;
mod modules;
mod names;
mod refusal;
mod runs;
mod token;

pub use c_structs::CStructs;
pub use folder::{c_structs_of_folder, erase_folder, Root};
pub use modules::{cargo_folder, erase_crates, or_exit, write_modules, CRATES};
pub use names::Names;
pub use refusal::Refusal;

use eraser::Eraser;

/// The Rust of a Rattle source.
pub fn erase(source: &str, names: &Names) -> Result<String, Refusal> {
    let mut eraser = Eraser::new(source, names)?;
    eraser.file()?;
    eraser.clean_imports();
    eraser.link_docs()?;
    let imports: Vec<&str> = eraser.prelude.iter().copied().collect();
    let line = match imports[..] {
        [] => return Ok(eraser.edits.apply(source)),
        [name] => format!("use rattle::prelude::{name};\n"),
        _ => format!("use rattle::prelude::{{{}}};\n", imports.join(", ")),
    };
    if let Some((at, is_use)) = eraser.front {
        eraser.edits.insert(at, if is_use { line } else { line + "\n" });
    }
    Ok(eraser.edits.apply(source))
}

#[cfg(test)]
mod tests {
    use super::*;

    /// What comes out of a source.
    pub fn erased(source: &str) -> String {
        erase(source, &Names::new()).unwrap()
    }

    /// The line of what is refused, and why.
    pub fn refused(source: &str) -> (usize, String) {
        let refusal = erase(source, &Names::new()).unwrap_err();
        (refusal.line, refusal.why)
    }

    #[test]
    fn names_without_an_import_are_imported() {
        assert_eq!(
            erased("//! Doc.\n\nmod x;\n\nuse a::B;\n\nfn f(v: Vec<B>) {}\n"),
            "//! Doc.\n\nmod x;\n\nuse rattle::prelude::Vec;\nuse a::B;\n\nfn f(v: Vec<B>) {}\n"
        );
        assert_eq!(
            erased("/// F.\nfn f(v: Vec<String>) {}\n"),
            "use rattle::prelude::{String, Vec};\n\n/// F.\nfn f(v: Vec<String>) {}\n"
        );
    }

    #[test]
    fn a_refusal_says_where() {
        let refusal = erase("\n\nfoo", &Names::new()).unwrap_err();
        let refusal = Refusal { file: "x.rt".into(), ..refusal };
        assert_eq!(refusal.to_string(), "x.rt:3: `foo`: no item that is known");
    }
}
