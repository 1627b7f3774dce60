//! The message layer of sqlx-postgres, whose `error.rs`, `io` and `message` are copied here unchanged,
//! as one side of the benchmark. The rest of the crate is left out.
#![allow(dead_code, unused_imports, private_interfaces)]
#![allow(unexpected_cfgs, unfulfilled_lint_expectations)]

#[macro_use]
extern crate sqlx_core;

mod bench;
pub mod error;
pub mod io;
pub mod message;

use error::Error;

pub mod types {
    #[derive(Debug, Copy, Clone, PartialEq, Eq, Hash, Default)]
    pub struct Oid(pub u32);
}

#[derive(Debug, Copy, Clone, PartialEq, Eq)]
#[repr(u8)]
pub enum PgValueFormat {
    Text = 0,
    Binary = 1,
}
