//! A server's message as `pg_tool stream` prints it, and the three kinds that it doesn't know.

use crate::trace::server_name;
use crate::{put, put_bytes};

/// The length of a length field, which counts itself.
const LENGTH_FIELD: usize = 4;

fn name_of(tag: u8) -> &'static str {
    server_name(tag).unwrap_or("Unknown")
}

/// Adds the line of a server's message: its name, its length, and its body in hexadecimal digits.
pub fn server_line(out: &mut Vec<u8>, tag: u8, body: &[u8]) {
    put(out, format_args!("{} {} ", name_of(tag), body.len() + LENGTH_FIELD));
    put_bytes(out, body);
    out.push(b'\n');
}

/// Adds the line of a server's message whose body is left out.
pub fn left_out_line(out: &mut Vec<u8>, tag: u8, length: u32) {
    put(out, format_args!("{} {length} left-out\n", name_of(tag)));
}
