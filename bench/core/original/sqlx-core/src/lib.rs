//! Stands in for what the original's message layer uses of sqlx-core, with its names and its work.

/// The error of a message that breaks the protocol, with a text in the manner of `format!`.
#[macro_export]
macro_rules! err_protocol {
    ($($text:tt)*) => {
        $crate::error::Error::Protocol(format!($($text)*))
    };
}

pub use bytes;

pub mod error;
pub mod io;

pub use error::Error;
