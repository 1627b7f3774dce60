//! What the library says in words that last.

use crate::refusals::words_of;
use core::ffi::c_char;

/// Why a call refused, by the number that it returned.
#[unsafe(no_mangle)]
pub extern "C" fn pgmsg_strerror(number: i32) -> *const c_char {
    words_of(number).as_ptr()
}

/// The version of the library, and that it is the plain build.
#[unsafe(no_mangle)]
pub extern "C" fn pgmsg_version() -> *const c_char {
    const VERSION: &str = concat!(env!("CARGO_PKG_VERSION"), " plain build\0");
    VERSION.as_ptr().cast()
}
