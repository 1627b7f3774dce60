//! The C library `pg_message` as a plain build: the sources of the proved one without their contracts, by rustc.
//!
//! The header, the symbols and what the calls do are those of the proved library. C calls it; `pg_message.h` says what it asks
//! of callers.

#![deny(unsafe_op_in_unsafe_fn)]
// The sources have a style of their own, and the header documents the calls.
#![allow(clippy::all, missing_docs)]

include!(concat!(env!("OUT_DIR"), "/crates.rs"));

mod words;
