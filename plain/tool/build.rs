//! Erases the sources of the program.

use erase::{cargo_folder, erase_folder, or_exit, Names, Root, CRATES};
use std::fs;
use std::path::Path;

fn main() {
    let out = cargo_folder("OUT_DIR");
    let source = cargo_folder("CARGO_MANIFEST_DIR").join("../../crates/pg_tool/src");
    println!("cargo:rerun-if-changed={}", source.display());
    let names = Names::new().others(&CRATES, "pgmsg_core");
    or_exit(erase_folder(&source, &out, Root::Crate, &names));
    include_root(&out.join("main.rs"));
}

/// Makes the root one that can be included, which documents nothing.
fn include_root(root: &Path) {
    let text = fs::read_to_string(root).expect("the root was written");
    fs::write(root, text.replace("//!", "//"))
        .expect("the folder for what is built can be written");
}
