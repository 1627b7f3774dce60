//! The server's side.

use super::client::read_verifier;
use super::{covered, is_nonce, is_same, without_proof, xor};
use super::{Digest, Error, Key};
use alloc::format;
use alloc::string::String;
use alloc::vec::Vec;
use core::fmt;
use core::marker::PhantomData;

/// What a server keeps in the place of a password.
#[derive(Clone, PartialEq, Eq)]
pub struct Credentials {
    /// The salt of the password.
    pub salt: Vec<u8>,
    /// How often it is hashed: PostgreSQL's servers do it 4096 times.
    pub iterations: u32,
    /// The hash of the client's key.
    pub stored_key: Key,
    /// The server's key.
    pub server_key: Key,
}

impl Credentials {
    /// Those of a password, with a random salt.
    pub fn new<D: Digest>(password: &[u8], salt: &[u8], iterations: u32) -> Credentials {
        let salted = D::salted(password, salt, iterations);
        Credentials {
            salt: salt.into(),
            iterations,
            stored_key: D::hash(&D::hmac(&salted, b"Client Key")),
            server_key: D::hmac(&salted, b"Server Key"),
        }
    }
}

/// Shows no key.
impl fmt::Debug for Credentials {
    fn fmt(&self, f: &mut fmt::Formatter<'_>) -> fmt::Result {
        f.debug_struct("Credentials").field("iterations", &self.iterations).finish_non_exhaustive()
    }
}

/// A server that tests a password, by the mechanism without channel binding.
///
/// [`challenge`](Server::challenge) takes the response of a
/// [`SaslInitialResponse`](crate::frontend::SaslInitialResponse), and what it gives is sent as
/// [`Authentication::SaslContinue`](crate::backend::Authentication::SaslContinue);
/// [`verify`](Server::verify) takes the next answer, and what it gives is sent as
/// [`Authentication::SaslFinal`](crate::backend::Authentication::SaslFinal).
pub struct Server<'a, D> {
    kept: &'a Credentials,
    nonce: &'a str,
    state: State,
    digest: PhantomData<D>,
}

/// What comes next.
enum State {
    /// The first message.
    First,
    /// The proof, after the rest of the answer, which is due, and for the messages that it covers.
    Proof { due: String, messages: Vec<u8> },
    /// Nothing: the password was the client's.
    Finished,
}

impl<'a, D: Digest> Server<'a, D> {
    /// A server with what it keeps of a password, and a nonce, as of a [`Client`](super::Client).
    pub const fn new(kept: &'a Credentials, nonce: &'a str) -> Server<'a, D> {
        Server { kept, nonce, state: State::First, digest: PhantomData }
    }

    /// Whether the client has shown that it knows the password.
    pub fn is_finished(&self) -> bool {
        matches!(self.state, State::Finished)
    }

    /// The challenge to a client by its first message.
    pub fn challenge(&mut self, first: &[u8]) -> Result<Vec<u8>, Error> {
        if !matches!(self.state, State::First) {
            return Err(Error::OutOfTurn);
        }
        // A client that could bind the channel says so, and was not offered it.
        let header = ["n,,", "y,,"].into_iter().find(|header| first.starts_with(header.as_bytes()));
        let header = header.ok_or(Error::WrongProof)?;
        let bare = &first[header.len()..];
        let theirs = bare.split(|&byte| byte == b',').nth(1);
        let theirs = theirs.and_then(|it| it.strip_prefix(b"r=")).unwrap_or_default();
        if !bare.starts_with(b"n=") || !is_nonce(theirs) || !is_nonce(self.nonce.as_bytes()) {
            return Err(Error::Nonce);
        }
        let nonce = String::from_utf8_lossy(theirs).into_owned() + self.nonce;
        let salt = base64::encode(&self.kept.salt);
        let challenge: Vec<u8> = format!("r={nonce},s={salt},i={}", self.kept.iterations).into();
        let due = without_proof(header, b"", &nonce);
        let messages = covered(bare, &challenge, due.as_bytes());
        self.state = State::Proof { due, messages };
        Ok(challenge)
    }

    /// Tests the client's proof. What it gives shows the client that the server knows the password too.
    pub fn verify(&mut self, answer: &[u8]) -> Result<Vec<u8>, Error> {
        let State::Proof { due, messages } = &self.state else { return Err(Error::OutOfTurn) };
        let proof = answer.strip_prefix(due.as_bytes());
        let proof = proof.and_then(|rest| rest.strip_prefix(b",p=")).ok_or(Error::WrongProof)?;
        let proof = read_verifier(&[b"v=", proof].concat())?;
        let key = xor(D::hmac(&self.kept.stored_key, messages), &proof);
        if proof.len() != key.len() || !is_same(&self.kept.stored_key, &D::hash(&key)) {
            return Err(Error::WrongProof);
        }
        let signature = D::hmac(&self.kept.server_key, messages);
        self.state = State::Finished;
        Ok(format!("v={}", base64::encode(signature)).into())
    }
}

/// Shows no key.
impl<D> fmt::Debug for Server<'_, D> {
    fn fmt(&self, f: &mut fmt::Formatter<'_>) -> fmt::Result {
        f.debug_struct("Server").finish_non_exhaustive()
    }
}
