//! SCRAM-SHA-256, by which PostgreSQL's servers ask for a password (RFC 5802 and RFC 7677): the messages of
//! a [`Client`] and of a [`Server`], over the caller's hash, as a [`Digest`].
//!
//! ```
//! # #[cfg(feature = "sha2")] {
//! use pgmsg::scram::{Client, Credentials, Server, Sha256};
//!
//! let kept = Credentials::new::<Sha256>(b"secret", b"salt of 16 bytes", 4096);
//! let mut server = Server::<Sha256>::new(&kept, "nonce-of-the-server");
//! let mut client = Client::<Sha256>::new(b"secret", "nonce-of-the-client");
//!
//! let challenge = server.challenge(&client.first())?;
//! let answer = client.answer(&challenge)?;
//! let last = server.verify(&answer)?;
//! client.finish(&last)?;
//! assert!(client.is_finished() && server.is_finished());
//! # }
//! # Ok::<(), pgmsg::scram::Error>(())
//! ```

mod client;
mod digest;
mod server;

pub use client::Client;
#[cfg(feature = "sha2")]
pub use digest::Sha256;
pub use digest::{Digest, Key};
pub use server::{Credentials, Server};

use crate::error::{Fault, Refusal};
use alloc::format;
use alloc::vec::Vec;
use core::fmt;

/// The mechanism without channel binding.
pub const SCRAM_SHA_256: &str = "SCRAM-SHA-256";

/// The mechanism with channel binding.
pub const SCRAM_SHA_256_PLUS: &str = "SCRAM-SHA-256-PLUS";

/// The most iterations that a [`Client`] does. A server may ask for any number, before it has shown that it
/// knows the password; more than these take many seconds.
pub const MAX_ITERATIONS: u32 = 10_000_000;

/// Why an exchange ends.
#[derive(Clone, Debug, PartialEq, Eq)]
#[non_exhaustive]
pub enum Error {
    /// The server offers no mechanism of SCRAM-SHA-256, or none with the channel binding that is required.
    NoMechanism,
    /// A nonce isn't what the other side may send, or what may be sent to it, or the server sends no salt.
    Nonce,
    /// The server asks for no iteration, or for more than [`MAX_ITERATIONS`].
    Iterations(u32),
    /// The message comes out of turn.
    OutOfTurn,
    /// The password of the client, or its channel, isn't the one that is due.
    WrongProof,
    /// The server doesn't know the password.
    WrongVerifier,
    /// A message can't be read.
    Fault(Fault),
}

impl fmt::Display for Error {
    fn fmt(&self, f: &mut fmt::Formatter<'_>) -> fmt::Result {
        f.write_str(match self {
            Error::NoMechanism => "the server offers no SCRAM-SHA-256",
            Error::Nonce => "a nonce of SCRAM is wrong",
            Error::Iterations(count) => return write!(f, "the server asks for {count} iterations"),
            Error::OutOfTurn => "a message of SCRAM comes out of turn",
            Error::WrongProof => "the client's proof is wrong",
            Error::WrongVerifier => "the server doesn't know the password",
            Error::Fault(fault) => return fault.fmt(f),
        })
    }
}

impl From<Fault> for Error {
    fn from(fault: Fault) -> Error {
        Error::Fault(fault)
    }
}

impl From<Refusal> for Error {
    fn from(refusal: Refusal) -> Error {
        Error::Fault(refusal.into())
    }
}

impl core::error::Error for Error {
    fn source(&self) -> Option<&(dyn core::error::Error + 'static)> {
        match self {
            Error::Fault(fault) => fault.source(),
            _ => None,
        }
    }
}

/// An error of the kind `InvalidData`, or `PermissionDenied` where a proof or a verifier is wrong.
#[cfg(feature = "std")]
impl From<Error> for std::io::Error {
    fn from(error: Error) -> std::io::Error {
        let kind = match error {
            Error::WrongProof | Error::WrongVerifier => std::io::ErrorKind::PermissionDenied,
            _ => std::io::ErrorKind::InvalidData,
        };
        std::io::Error::new(kind, error)
    }
}

/// The bytes of two keys, each added to the other by exclusive or.
fn xor(mut key: Key, other: &[u8]) -> Key {
    key.iter_mut().zip(other).for_each(|(byte, other)| *byte ^= other);
    key
}

/// Whether two keys are the same, in a time that doesn't depend on where they differ.
fn is_same(key: &Key, other: &[u8]) -> bool {
    let differences = key.iter().zip(other).map(|(a, b)| a ^ b);
    key.len() == other.len() && differences.fold(0, |all, it| all | it) == 0
}

/// Whether a nonce, or a part of one, can stand in a message: printable ASCII but the comma.
fn is_nonce(text: &[u8]) -> bool {
    !text.is_empty() && text.iter().all(|byte| byte.is_ascii_graphic() && *byte != b',')
}

/// The messages that the proof and the signature cover.
fn covered(first: &[u8], challenge: &[u8], without_proof: &[u8]) -> Vec<u8> {
    [first, challenge, without_proof].join(&b","[..])
}

/// The message of the client's proof but for that.
fn without_proof(header: &str, binding: &[u8], nonce: &str) -> alloc::string::String {
    format!("c={},r={nonce}", base64::encode([header.as_bytes(), binding].concat()))
}
