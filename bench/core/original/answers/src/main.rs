//! Decodes bodies with the original, and prints what every accessor returns, in the form of the
//! program `tests/answers/pg_answers`, whose README has it:
//!
//!     answers decode [more] < LINES
//!
//! With `more` it also says why a body is refused, and after a panic its text, and whether it came
//! from decoding or from an accessor.
#![allow(dead_code, unused_imports, private_interfaces)]
#![allow(unexpected_cfgs, unfulfilled_lint_expectations)]

#[macro_use]
extern crate sqlx_core;

#[path = "../../layer/src/error.rs"]
mod error;
#[path = "../../layer/src/io/mod.rs"]
mod io;
#[path = "../../layer/src/message/mod.rs"]
mod message;

mod messages;
mod outcome;
mod report;
mod words;

use std::io::{BufWriter, Read, Write};

use error::Error;

mod types {
    #[derive(Debug, Copy, Clone, PartialEq, Eq, Hash, Default)]
    pub struct Oid(pub u32);
}

#[derive(Debug, Copy, Clone, PartialEq, Eq)]
#[repr(u8)]
enum PgValueFormat {
    Text = 0,
    Binary = 1,
}

// The tag and the body of a line, both in hexadecimal digits.
fn parsed(line: &str) -> Option<(u8, Vec<u8>)> {
    let (tag, body) = line.split_once(' ')?;
    let [tag] = hex::decode(tag).ok()?.try_into().ok()?;
    let body = match body {
        "-" => Vec::new(),
        digits => hex::decode(digits).ok()?,
    };
    Some((tag, body))
}

fn main() -> std::io::Result<()> {
    let arguments: Vec<String> = std::env::args().skip(1).collect();
    let more = match arguments.iter().map(String::as_str).collect::<Vec<_>>()[..] {
        ["decode"] => false,
        ["decode", "more"] => true,
        _ => panic!("answers decode [more]"),
    };
    let mut lines = String::new();
    std::io::stdin().read_to_string(&mut lines)?;
    // a panic is an answer
    std::panic::set_hook(Box::new(|_| {}));
    let mut out = BufWriter::new(std::io::stdout().lock());
    for (index, line) in lines.lines().enumerate() {
        let Some((tag, body)) = parsed(line) else {
            out.flush()?;
            eprintln!("line {}: bad command", index + 1);
            std::process::exit(1);
        };
        writeln!(out, "{}", outcome::answer(tag, body.into(), more))?;
    }
    out.flush()
}
