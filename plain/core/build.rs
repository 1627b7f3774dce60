//! Erases the sources of the crates into modules of this one. A package holds them erased in `src/erased`.

use erase::{erase_crates, write_modules, CStructs, CRATES};

fn main() {
    write_modules(&CRATES, |repository, out| {
        erase_crates(&CRATES, repository, out, |_, _| Ok(CStructs::default()))
    });
}
