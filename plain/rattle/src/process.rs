//! Who may end the program, and how it ends.

#[cfg(feature = "std")]
pub use std::process::ExitCode;

/// What `assert!` and `panic!` take in Rattle.
pub trait Abort {}

impl Abort for crate::test::HostRuntime {}
