//! Tests on recordings: pg_replay answers them as the server did, so that they need no database.
//!
//! ```no_run
//! # fn connect(_: &str) {}
//! # fn main() -> Result<(), pgmsg_testing::Error> {
//! let tape = pgmsg_testing::Options::new().open("tests/people.tape")?;
//! connect(&format!("host={} port={} user=ann", tape.host(), tape.port()));
//! tape.finish()
//! # }
//! ```
//!
//! With the variable `PG_TAPE=record` a test makes its recording anew, with the server that PGHOST and PGPORT name, and with
//! `PG_TAPE=missing` only what isn't in it. The programs are those that the variables PG_RECORD and PG_REPLAY name, else those of the PATH.
#![forbid(unsafe_code)]

mod error;
mod program;
mod tape;

pub use error::Error;
pub use tape::{Options, Tape};
