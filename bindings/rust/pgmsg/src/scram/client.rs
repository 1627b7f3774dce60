//! The client's side.

use super::{covered, is_nonce, is_same, without_proof, xor};
use super::{Digest, Error, Key, MAX_ITERATIONS, SCRAM_SHA_256, SCRAM_SHA_256_PLUS};
use crate::backend::Authentication;
use crate::buffer::Buffer;
use crate::error::Fault;
use crate::frontend::{Password, SaslInitialResponse};
use alloc::format;
use alloc::string::String;
use alloc::vec;
use alloc::vec::Vec;
use core::fmt;
use core::marker::PhantomData;
use pgmsg_core::pg_receive::message::{
    AuthenticationSaslContinueRef, AuthenticationSaslFinalRef, Base64Bytes,
};

/// A client that has a password.
///
/// [`respond`](Client::respond) takes the server's requests and writes what to send. Only once the client
/// [is finished](Client::is_finished) has the server shown that it knows the password too: an
/// AuthenticationOk before that is not to be trusted, and neither are rows or a ReadyForQuery before the
/// AuthenticationOk.
///
/// ```
/// # #[cfg(feature = "sha2")] {
/// use pgmsg::backend::Authentication;
/// use pgmsg::scram::{Client, Sha256};
///
/// let mut client = Client::<Sha256>::new(b"secret", "random-text");
/// let mut out = Vec::new();
/// client.respond(&Authentication::Sasl(["SCRAM-SHA-256".into()].into()), &mut out)?;
/// assert_eq!(out, b"p\0\0\0\x29SCRAM-SHA-256\0\0\0\0\x13n,,n=,r=random-text");
/// # }
/// # Ok::<(), pgmsg::scram::Error>(())
/// ```
pub struct Client<'a, D> {
    user: &'a str,
    password: &'a [u8],
    nonce: &'a str,
    binding: Option<&'a [u8]>,
    requires_binding: bool,
    state: State,
    digest: PhantomData<D>,
}

/// What comes next.
#[derive(Clone, Copy, PartialEq, Eq)]
enum State {
    /// The offer of mechanisms, or the challenge to a first message without channel binding.
    Offer,
    /// The challenge, after a first message that began so.
    Challenge(&'static str),
    /// The server's signature, which is this.
    Signature(Key),
    /// Nothing.
    Finished,
}

/// The first messages begin so without channel binding, where the client has none or the server offers none,
/// and with it.
const HEADERS: [&str; 3] = ["n,,", "y,,", "p=tls-server-end-point,,"];

impl<'a, D: Digest> Client<'a, D> {
    /// A client with a password, which should be normalised by SASLprep where it isn't ASCII, and a nonce:
    /// a random text of printable ASCII but the comma, such as base64 of 18 random bytes.
    pub const fn new(password: &'a [u8], nonce: &'a str) -> Client<'a, D> {
        Client {
            user: "",
            password,
            nonce,
            binding: None,
            requires_binding: false,
            state: State::Offer,
            digest: PhantomData,
        }
    }

    /// Names the user in the exchange, too. PostgreSQL's servers take that of the Startup.
    pub const fn with_user(mut self, user: &'a str) -> Client<'a, D> {
        self.user = user;
        self
    }

    /// Binds the exchange to a TLS connection, by the hash of the server's certificate (RFC 5929's
    /// tls-server-end-point), where the server offers that.
    pub const fn with_channel_binding(mut self, hash: &'a [u8]) -> Client<'a, D> {
        self.binding = Some(hash);
        self
    }

    /// Binds it so, and refuses a server that doesn't offer that, as libpq does by `channel_binding=require`:
    /// whoever stands between the two and ends the TLS connection offers none.
    pub const fn requiring_channel_binding(self, hash: &'a [u8]) -> Client<'a, D> {
        let mut client = self.with_channel_binding(hash);
        client.requires_binding = true;
        client
    }

    /// Whether the server has shown that it knows the password.
    pub fn is_finished(&self) -> bool {
        self.state == State::Finished
    }

    /// Answers a request of SASL: chooses a mechanism, answers a challenge, or takes the server's signature
    /// and writes nothing. Each comes once, so that a server can't have a client hash without end.
    pub fn respond<B: Buffer>(
        &mut self,
        request: &Authentication<'_>,
        out: &mut B,
    ) -> Result<(), Error> {
        match request {
            Authentication::Sasl(mechanisms) => {
                let mechanism = self.choose(|name| mechanisms.iter().any(|it| *it == name))?;
                let first = self.first();
                let initial = SaslInitialResponse {
                    mechanism: mechanism.into(),
                    response: Some((&first).into()),
                };
                Ok(initial.write(out)?)
            }
            Authentication::SaslContinue(challenge) => {
                Ok(Password(&self.answer(challenge.0)?).write(out)?)
            }
            Authentication::SaslFinal(last) => self.finish(last.0),
            _ => Err(Error::OutOfTurn),
        }
    }

    /// Chooses a mechanism of those that are offered.
    fn choose(&mut self, is_offered: impl Fn(&str) -> bool) -> Result<&'static str, Error> {
        let can_bind = self.binding.is_some();
        let binds = can_bind && (self.requires_binding || is_offered(SCRAM_SHA_256_PLUS));
        let (header, mechanism) = match binds {
            true => (HEADERS[2], SCRAM_SHA_256_PLUS),
            false => (HEADERS[usize::from(can_bind)], SCRAM_SHA_256),
        };
        if !is_offered(mechanism) {
            return Err(Error::NoMechanism);
        }
        if self.state != State::Offer {
            return Err(Error::OutOfTurn);
        }
        self.state = State::Challenge(header);
        Ok(mechanism)
    }

    /// The first message, of the mechanism that was chosen, or of the one without channel binding.
    pub fn first(&self) -> Vec<u8> {
        let header = match self.state {
            State::Challenge(header) => header,
            _ => HEADERS[0],
        };
        format!("{header}{}", self.bare()).into()
    }

    /// The first message after its header.
    fn bare(&self) -> String {
        let user = self.user.replace('=', "=3D").replace(',', "=2C");
        format!("n={user},r={}", self.nonce)
    }

    /// The answer to the server's challenge, with the proof.
    pub fn answer(&mut self, challenge: &[u8]) -> Result<Vec<u8>, Error> {
        let header = match self.state {
            State::Offer => HEADERS[0],
            State::Challenge(header) => header,
            _ => return Err(Error::OutOfTurn),
        };
        if self.requires_binding && header != HEADERS[2] {
            return Err(Error::NoMechanism);
        }
        let asked = AuthenticationSaslContinueRef::read(challenge).map_err(Fault::from)?;
        let (iterations, salt, nonce) = (asked.iterations, bytes_of(&asked.salt), asked.nonce);
        let added = nonce.strip_prefix(self.nonce).unwrap_or_default();
        let begins = challenge.starts_with(b"r=") && is_nonce(self.nonce.as_bytes());
        if !begins || !is_nonce(added.as_bytes()) || salt.is_empty() {
            return Err(Error::Nonce);
        }
        if iterations == 0 || iterations > MAX_ITERATIONS {
            return Err(Error::Iterations(iterations));
        }
        let salted = D::salted(self.password, &salt, iterations);
        let binding = self.binding.filter(|_| header == HEADERS[2]).unwrap_or_default();
        let answer = without_proof(header, binding, nonce);
        let messages = covered(self.bare().as_bytes(), challenge, answer.as_bytes());
        let key = D::hmac(&salted, b"Client Key");
        let proof = xor(key, &D::hmac(&D::hash(&key), &messages));
        self.state = State::Signature(D::hmac(&D::hmac(&salted, b"Server Key"), &messages));
        Ok(format!("{answer},p={}", base64::encode(proof)).into())
    }

    /// Takes the server's signature.
    pub fn finish(&mut self, last: &[u8]) -> Result<(), Error> {
        let State::Signature(signature) = self.state else { return Err(Error::OutOfTurn) };
        if !is_same(&signature, &read_verifier(last)?) {
            return Err(Error::WrongVerifier);
        }
        self.state = State::Finished;
        Ok(())
    }
}

/// Shows nothing of the password.
impl<D> fmt::Debug for Client<'_, D> {
    fn fmt(&self, f: &mut fmt::Formatter<'_>) -> fmt::Result {
        f.debug_struct("Client").finish_non_exhaustive()
    }
}

/// The bytes that stand as base64 in a message.
fn bytes_of(base64: &Base64Bytes<'_>) -> Vec<u8> {
    let mut bytes = vec![0; base64.len()];
    base64.copy_to(&mut bytes);
    bytes
}

/// The value `v` of a message, of base64, or nothing where there is none.
pub(super) fn read_verifier(data: &[u8]) -> Result<Vec<u8>, Fault> {
    Ok(bytes_of(&AuthenticationSaslFinalRef::read(data)?.verifier))
}
