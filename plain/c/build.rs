//! Erases the sources of the crates for C into modules of this one. A package holds them erased in `src/erased`.

use erase::{c_structs_of_folder, erase_crates, write_modules, CStructs, Refusal, CRATES};
use std::fs;
use std::path::Path;

fn main() {
    // Those that `pg_c` stands on, and itself.
    let crates = [&CRATES[..CRATES.len() - 1], &["pg_c"]].concat();
    let names = [&crates[..], &["refusals"]].concat();
    write_modules(&names, |repository, out| {
        erase_all(&crates, repository, out)?;
        write_words(&repository.join("bindings/c/library/words.c"), out);
        Ok(())
    });
}

fn erase_all(crates: &[&str], repository: &Path, out: &Path) -> Result<(), Refusal> {
    let mut structs = CStructs::default();
    erase_crates(crates, repository, out, |name, source| {
        let own = c_structs_of_folder(source)?;
        structs = structs.clone().and(own.clone());
        // What C fills is named by its crate, and by the last.
        Ok(if name == "pg_c" { structs.clone() } else { own })
    })
}

/// The words of `pgmsg_strerror`, which the library in C has in rows as `[-PGMSG_SHORT] = "message body is too short",`.
fn write_words(library: &Path, out: &Path) {
    println!("cargo:rerun-if-changed={}", library.display());
    let text = fs::read_to_string(library).expect("the words of the library can be read");
    let rows = text.lines().filter_map(|line| {
        line.trim().strip_prefix("[-PGMSG_")?.strip_suffix(',')?.split_once("] = ")
    });
    let arms: String = rows.map(|(name, words)| format!("        {name} => c{words},\n")).collect();
    let words = format!(
        "use crate::pg_c::refusal::*;\nuse core::ffi::CStr;\n\n/// The words of a number that a call returns.\n\
         pub fn words_of(number: i32) -> &'static CStr {{\n    match number {{\n        0.. => c\"no error\",\n{arms}        \
         _ => c\"unknown error\",\n    }}\n}}\n"
    );
    fs::create_dir_all(out.join("refusals")).expect("the folder for what is built can be written");
    fs::write(out.join("refusals/mod.rs"), words)
        .expect("the folder for what is built can be written");
}
