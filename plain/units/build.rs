//! Erases the tests of the crates into modules of this one, with what they share.

use erase::{cargo_folder, erase_folder, or_exit, Names, Refusal, Root, CRATES};
use std::fs::OpenOptions;
use std::io::Write;
use std::path::Path;
use std::{fs, io, process};

/// The modules of this crate, and where their sources are.
const MODULES: [(&str, &str); 12] = [
    ("pg_base_tests", "crates/pg_base/tests"),
    ("pg_send_tests", "crates/pg_send/tests"),
    ("pg_receive_tests", "crates/pg_receive/tests"),
    ("pg_server_tests", "crates/pg_server/tests"),
    ("pg_replication_tests", "crates/pg_replication/tests"),
    ("pg_frames_tests", "crates/pg_frames/tests"),
    ("pg_flow_tests", "crates/pg_flow/tests"),
    ("examples", "crates/examples/src"),
    ("examples_tests", "crates/examples/tests"),
    ("memory", "tests/memory"),
    ("pg_tool", "crates/pg_tool/src"),
    ("pg_tool/tests", "crates/pg_tool/tests"),
];

fn main() {
    let (top, out) = (cargo_folder("CARGO_MANIFEST_DIR").join("../.."), cargo_folder("OUT_DIR"));
    or_exit(erase_all(&top, &out));
    if let Err(error) = write_modules(&out) {
        eprintln!("{}: {error}", out.display());
        process::exit(1);
    }
}

/// Declares the modules: all here, but the tests of the program in the program.
fn write_modules(out: &Path) -> io::Result<()> {
    let names = ["refusing"]
        .into_iter()
        .chain(MODULES.map(|(name, _)| name))
        .filter(|name| !name.contains('/'));
    fs::write(
        out.join("tests.rs"),
        names.map(|name| format!("mod {name};\n")).collect::<String>(),
    )?;
    let mut program = OpenOptions::new().append(true).open(out.join("pg_tool/mod.rs"))?;
    program.write_all(b"\nmod tests;\n")
}

fn erase_all(top: &Path, out: &Path) -> Result<(), Refusal> {
    let names = Names::new().shared("refusing").others(&CRATES, "pgmsg_core");
    let names = names.other("examples", "crate::examples");
    erase(&top.join("tests/refused"), out, &names)?;
    for (name, source) in MODULES {
        let own = match name.split('/').next() {
            Some(name @ ("examples" | "pg_tool")) => format!("crate::{name}"),
            _ => "crate".into(),
        };
        erase(&top.join(source), &out.join(name), &names.clone().own(&own))?;
    }
    Ok(())
}

fn erase(source: &Path, out: &Path, names: &Names) -> Result<(), Refusal> {
    println!("cargo:rerun-if-changed={}", source.display());
    erase_folder(source, out, Root::Module, names).map(drop)
}
