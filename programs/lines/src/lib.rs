//! Messages of PostgreSQL's protocol as lines of text: by their names with fields in hexadecimal digits, or in the
//! notation of libpq's PQtrace.
#![forbid(unsafe_code)]

mod client;
mod escape;
mod server;
pub mod trace;

pub use client::client_line;
pub use escape::{escape, is_control, is_obeyed};
pub use server::{left_out_line, server_line};

use std::fmt;
use std::io::Write;

/// Adds formatted text to bytes.
fn put(out: &mut Vec<u8>, text: fmt::Arguments<'_>) {
    // Writing to a vector never fails.
    let _ = out.write_fmt(text);
}

/// Adds bytes in hexadecimal digits.
fn put_digits(out: &mut Vec<u8>, bytes: &[u8]) {
    let start = out.len();
    out.resize(start + 2 * bytes.len(), 0);
    // The room is twice as long as the bytes.
    let _ = hex::encode_to_slice(bytes, &mut out[start..]);
}

/// Adds bytes in hexadecimal digits, or `-` where there are none.
fn put_bytes(out: &mut Vec<u8>, bytes: &[u8]) {
    if bytes.is_empty() {
        out.push(b'-');
    }
    put_digits(out, bytes);
}
