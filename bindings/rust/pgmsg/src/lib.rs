//! Messages of the PostgreSQL wire protocol, version 3, as a client and a server send and receive them.
//!
//! This crate stands on the message layer of the project Tarnwhisk, `pgmsg_core`, whose sources are proved; here they
//! are plain Rust without `unsafe`. It has no sockets:
//!
//! - A [`Decoder`] cuts a stream into its messages, without copying them.
//! - A [`Connection`] says which message may be sent now, and which request an answer is of.
//! - [`backend::Message`] is any message of a server and [`frontend::Message`] any message of a client, to read and to
//!   write; it borrows its bytes.
//! - A [`relay::Relay`] passes on the bytes of either side.
//! - A [`replication::Message`] is the data of a CopyData in replication.
//! - [`scram`] logs in with a password.
//!
//! ```
//! use pgmsg::{backend, frontend, Decoder};
//!
//! let mut out = Vec::new();
//! frontend::Message::Query("SELECT 1".into()).write(&mut out)?;
//! assert_eq!(out, b"Q\0\0\0\x0DSELECT 1\0");
//!
//! let mut decoder = Decoder::of_server();
//! let frame = decoder.next(b"Z\0\0\0\x05I")?.frame().ok_or("a whole message")?;
//! match backend::Message::read(&frame)? {
//!     backend::Message::ReadyForQuery(status) => assert_eq!(status.letter(), b'I'),
//!     other => panic!("{other:?}"),
//! }
//! # Ok::<(), Box<dyn std::error::Error>>(())
//! ```
//!
//! # Errors
//!
//! A call that writes fails with a [`Refusal`], and leaves in the buffer the messages that were written before.
//! A call that reads fails with a [`Fault`]: a [`Refusal`], the offset of the fault, and words.
//! Both can be made a `std::io::Error`. No input makes a call panic.
//!
//! # Features
//!
//! - `std`, a default, converts errors to `std::io::Error`; without it the crate needs only `alloc`.
//! - `bytes` appends messages to a `BytesMut`.
//! - `codec` has codecs of `tokio_util` for both sides.
//! - `serde` serializes and deserializes statuses, severities, refusals, faults and owned messages.
//! - `sha2` has a hash for [`scram`], by the crates sha2 and hmac.
//!
//! The crate needs Rust 1.87.

#![no_std]
#![forbid(unsafe_code)]
#![warn(missing_docs)]

extern crate alloc;
#[cfg(any(feature = "std", test))]
extern crate std;

pub mod backend;
mod body;
mod buffer;
mod byte_str;
#[cfg(feature = "codec")]
pub mod codec;
pub mod connection;
mod decoder;
mod error;
pub mod flow;
mod frame;
pub mod frontend;
mod list;
mod message;
mod owned;
pub mod relay;
pub mod replication;
mod row;
pub mod scram;
mod value;
mod values;

pub use buffer::Buffer;
pub use byte_str::{ByteStr, Secret};
pub use connection::Connection;
pub use decoder::Decoder;
pub use error::{Fault, Refusal};
pub use frame::{Frame, Next};
pub use list::List;
pub use value::{Format, Value};
pub use values::Values;

/// The number of an object in the catalog of a server, such as a type, a table or a function: a `u32`, as in `postgres-types`.
pub type Oid = u32;
