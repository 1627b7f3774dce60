//! Writes and reads PostgreSQL messages that are given as lines of text: `crates/pg_tool`, erased.

#![forbid(unsafe_code)]
// The sources have a style of their own.
#![allow(clippy::all)]

include!(concat!(env!("OUT_DIR"), "/main.rs"));
