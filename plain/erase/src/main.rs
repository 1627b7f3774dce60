//! `erase SOURCE TARGET` erases the sources of one folder into another.

use erase::{erase_folder, Names, Root};
use std::path::Path;
use std::process::ExitCode;

fn main() -> ExitCode {
    let words: Vec<String> = std::env::args().skip(1).collect();
    let [source, target] = &words[..] else {
        eprintln!("usage: erase SOURCE TARGET");
        return ExitCode::from(2);
    };
    match erase_folder(Path::new(source), Path::new(target), Root::Crate, &Names::new()) {
        Ok(_) => ExitCode::SUCCESS,
        Err(refusal) => {
            eprintln!("{refusal}");
            ExitCode::FAILURE
        }
    }
}
