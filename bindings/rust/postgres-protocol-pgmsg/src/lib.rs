//! The interface of the crate `postgres-protocol` 0.6, whose messages are written and read by
//! [`pgmsg`], over a core whose sources are proved.
//!
//! [`message::frontend`] and [`message::backend`] have the names and the signatures of
//! `postgres-protocol`. All else is passed on from it. A driver takes this crate in its place by a
//! `[patch]`; the repository says how.
//!
//! ```
//! use bytes::BytesMut;
//! use postgres_protocol_pgmsg::message::backend::Message;
//! use postgres_protocol_pgmsg::message::frontend;
//!
//! let mut out = BytesMut::new();
//! frontend::query("SELECT 1", &mut out)?;
//! assert_eq!(out, &b"Q\0\0\0\x0DSELECT 1\0"[..]);
//!
//! let mut stream = BytesMut::from(&b"Z\0\0\0\x05I"[..]);
//! match Message::parse(&mut stream)? {
//!     Some(Message::ReadyForQuery(body)) => assert_eq!(body.status(), b'I'),
//!     _ => panic!("another message"),
//! }
//! # Ok::<(), std::io::Error>(())
//! ```
//!
//! # Differences
//!
//! What both take is written and read the same. They differ in what they refuse:
//!
//! | call, or bytes from the server | here | `postgres-protocol` |
//! |---|---|---|
//! | `startup_message([("", "")])` | refused: the settings would end there | written |
//! | `describe(b'x', "")`, `close(b'x', "")` | refused: neither a statement nor a portal | written |
//! | `parse` of 32768 types, `bind` of 32768 values or formats | written: a message counts to 65535 | refused |
//! | ReadyForQuery `5A 00000005 00`, with no known status | refused | read |
//! | `53 80000000`, a length above 2147483647 | refused by `Message::parse` | waited for |
//! | CopyInResponse or CopyOutResponse of 32768 columns or more | refused by `column_formats` | read |
//! | DataRow `44 0000000A 0002 FFFFFFFF`, whose second cell is missing | refused by the first `next` | refused by the second |
//!
//! The last row holds for all lists. A call that refuses leaves the buffer as it was. Errors have
//! other kinds and words. A message that isn't whole has room for at most another MiB made at once.

#![forbid(unsafe_code)]
#![warn(missing_docs)]

mod lacking;

/// Messages between client and server.
pub mod message {
    pub mod backend;
    pub mod frontend;
}

pub use original::{authentication, escape, password, types, IsNull, Lsn, Oid};
