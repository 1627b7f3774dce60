//! Encodes and decodes the messages of the PostgreSQL wire protocol, of either side.
//!
//! The sources are those of a core in Rattle, Rust with contracts, without the contracts that are proved of them. Each of its
//! crates is a module here; [`pg_message`] has all public names. What needs memory answers where it is refused.

#![no_std]
#![forbid(unsafe_code)]
// The sources have a style of their own.
#![allow(clippy::all)]

mod shown;

include!(concat!(env!("OUT_DIR"), "/crates.rs"));
