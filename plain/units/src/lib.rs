//! The tests of the core, erased, with requests for memory refused.

#![cfg(test)]
// A runtime that assertions alone take isn't used here, nor is all that an example or what tests share gives to others; and
// slices are handed to functions of this crate.
#![allow(improper_ctypes, improper_ctypes_definitions, dead_code, unused_imports, unused_variables)]
// The sources have a style of their own.
#![allow(clippy::all)]

mod allocator;

include!(concat!(env!("OUT_DIR"), "/tests.rs"));
