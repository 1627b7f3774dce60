//! What erased Rattle sources take from the toolchain's library, over crates of Rust.
//!
//! The names are those of Rust's library and of the crates `bytes`, `smallvec`, `base64`, `hex`, `itoa`, `byteorder` and
//! `memchr`. Calls that ask for memory answer where it is refused, and take the allocator, which is the global one.

#![no_std]
#![warn(missing_docs)]
#![deny(unsafe_op_in_unsafe_fn, clippy::undocumented_unsafe_blocks)]

extern crate alloc as rust_alloc;
#[cfg(any(feature = "std", test))]
extern crate std;

pub mod alloc;
pub mod base64;
pub mod bytes;
pub mod collections;
#[cfg(feature = "std")]
pub mod env;
pub mod ffi;
pub mod hex;
#[cfg(feature = "std")]
pub mod io;
pub mod iter;
pub mod prelude;
pub mod process;
pub mod simd;
pub mod smallvec;
pub mod str;
pub mod string;
pub mod test;
pub mod vec;

pub use {byteorder, itoa, memchr};
