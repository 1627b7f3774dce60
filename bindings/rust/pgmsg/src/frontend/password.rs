//! The answers to a request for authentication.

use super::read_text;
use crate::body::checked;
use crate::buffer::{put_message, put_sound, Buffer};
use crate::byte_str::{ByteStr, Secret};
use crate::error::{Fault, Refusal};
use core::fmt;
use pgmsg_core::pg_base::io::part::Slice;
use pgmsg_core::pg_send::message as sent;
use pgmsg_core::pg_server::frontend::SaslInitialRef;

/// The body of an answer to a request for authentication. What it is, the request says: all of it is data
/// where it is a SASLResponse or a GSSResponse.
///
/// ```
/// use pgmsg::frontend::Password;
///
/// let answer = Password(b"secret\0");
/// assert_eq!(answer.password()?, b"secret");
/// assert!(answer.sasl_initial().is_err());
/// assert_eq!(format!("{answer:?}"), "Password(7 bytes)");
/// # Ok::<(), pgmsg::Fault>(())
/// ```
#[derive(Clone, Copy, Default, PartialEq, Eq)]
pub struct Password<'a>(pub &'a [u8]);

impl<'a> Password<'a> {
    #[inline]
    pub(super) fn read(body: &'a [u8]) -> Result<Password<'a>, Fault> {
        Ok(Password(body))
    }

    /// Appends a message of this body.
    pub fn write<B: Buffer>(&self, out: &mut B) -> Result<(), Refusal> {
        put_sound(b'p', Slice(self.0), Ok(()), out)
    }

    /// The password of a PasswordMessage, in clear or its digest.
    pub fn password(self) -> Result<&'a [u8], Fault> {
        read_text(self.0).map(|text| text.0)
    }

    /// What a SASLInitialResponse says.
    pub fn sasl_initial(self) -> Result<SaslInitialResponse<'a>, Fault> {
        SaslInitialResponse::read(self.0)
    }
}

/// Shows the length alone, since the bytes may be a password.
impl fmt::Debug for Password<'_> {
    fn fmt(&self, f: &mut fmt::Formatter<'_>) -> fmt::Result {
        write!(f, "Password({} bytes)", self.0.len())
    }
}

/// A password in clear.
///
/// ```
/// # let mut out = Vec::new();
/// pgmsg::frontend::PasswordMessage("secret".into()).write(&mut out)?;
/// assert_eq!(out, b"p\0\0\0\x0bsecret\0");
/// # Ok::<(), pgmsg::Refusal>(())
/// ```
#[derive(Clone, Copy, Debug, Default, PartialEq, Eq)]
pub struct PasswordMessage<'a>(pub Secret<'a>);

impl PasswordMessage<'_> {
    /// Appends the message.
    ///
    /// Refused with [`TextHoldsNul`](Refusal::TextHoldsNul) where the password holds a NUL.
    pub fn write<B: Buffer>(&self, out: &mut B) -> Result<(), Refusal> {
        put_message(&sent::Password::Bytes(self.0 .0), out)
    }
}

/// The digest of a password: the MD5 digest of two texts joined, which are the MD5 digest of password and
/// user name, in hexadecimal digits, and the salt that the server sent.
///
/// ```
/// # let mut out = Vec::new();
/// pgmsg::frontend::Md5Password([0xab; 16]).write(&mut out)?;
/// assert!(out.starts_with(b"p\0\0\0\x28md5abab"));
/// # Ok::<(), pgmsg::Refusal>(())
/// ```
#[derive(Clone, Copy, PartialEq, Eq)]
pub struct Md5Password(pub [u8; 16]);

impl Md5Password {
    /// Appends the message.
    pub fn write<B: Buffer>(&self, out: &mut B) -> Result<(), Refusal> {
        put_message(&sent::Password::Md5 { digest: self.0 }, out)
    }
}

/// The first answer to a request for SASL, which chooses a mechanism.
///
/// ```
/// use pgmsg::frontend::SaslInitialResponse;
///
/// let initial = SaslInitialResponse::read(b"SCRAM-SHA-256\0\0\0\0\x0bn,,n=,r=abc")?;
/// assert_eq!(initial.mechanism, "SCRAM-SHA-256");
/// assert_eq!(initial.response, Some("n,,n=,r=abc".into()));
/// # let mut out = Vec::new();
/// initial.write(&mut out)?;
/// # Ok::<(), Box<dyn std::error::Error>>(())
/// ```
#[derive(Clone, Copy, Debug, Default, PartialEq, Eq)]
pub struct SaslInitialResponse<'a> {
    /// The name of the mechanism that the client chose.
    pub mechanism: ByteStr<'a>,
    /// The first data of its exchange; without any, the server begins.
    pub response: Option<Secret<'a>>,
}

impl<'a> SaslInitialResponse<'a> {
    /// Reads the body of a SASLInitialResponse.
    pub fn read(body: &'a [u8]) -> Result<SaslInitialResponse<'a>, Fault> {
        let initial = SaslInitialRef::read(checked(body)?)?;
        let (mechanism, response) = (ByteStr(initial.mechanism), initial.response.map(Secret));
        Ok(SaslInitialResponse { mechanism, response })
    }

    /// Appends the message.
    ///
    /// Refused with [`TextHoldsNul`](Refusal::TextHoldsNul) where the name holds a NUL.
    pub fn write<B: Buffer>(&self, out: &mut B) -> Result<(), Refusal> {
        let response = self.response.map(|response| response.0);
        put_message(&sent::SaslInitial { mechanism: &self.mechanism, response }, out)
    }
}
