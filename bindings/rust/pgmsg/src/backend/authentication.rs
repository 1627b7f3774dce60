//! What the server asks of a client that opens a session.

use crate::body::checked;
use crate::buffer::{put_answer, put_sound, Buffer};
use crate::byte_str::{ByteStr, Secret};
use crate::error::{Fault, Refusal};
use crate::list::List;
use core::iter;
use pgmsg_core::pg_base::io::part::{Number32, Slice, Then};
use pgmsg_core::pg_base::io::u32_at;
use pgmsg_core::pg_receive::message::{split_raw_name, RawAuthentication};
use pgmsg_core::pg_server::backend::OutboundSasl;

/// The bytes of the number of a method.
const METHOD: usize = 4;

/// How the server wants its client to show who it is, or that it has.
///
/// ```
/// use pgmsg::{backend::Authentication, ByteStr};
///
/// match Authentication::read(b"\0\0\0\x0aSCRAM-SHA-256\0\0")? {
///     Authentication::Sasl(mechanisms) => assert_eq!(mechanisms[..], [ByteStr(b"SCRAM-SHA-256")]),
///     other => panic!("{other:?}"),
/// }
/// # Ok::<(), pgmsg::Fault>(())
/// ```
#[derive(Clone, Debug, PartialEq, Eq)]
#[non_exhaustive]
pub enum Authentication<'a> {
    /// The client is accepted.
    Ok,
    /// Kerberos V5 is wanted, by a server before version 9.4.
    KerberosV5,
    /// A password is wanted in clear.
    CleartextPassword,
    /// A password is wanted as an MD5 digest, with this salt.
    Md5Password([u8; 4]),
    /// The credentials of a Unix socket are wanted, by a server before version 9.1.
    ScmCredential,
    /// An exchange of GSSAPI is wanted.
    Gss,
    /// The next data in an exchange of GSSAPI or SSPI.
    GssContinue(Secret<'a>),
    /// An exchange of SSPI is wanted.
    Sspi,
    /// A SASL exchange is wanted, by one of these mechanisms, in the order of the server's preference.
    Sasl(List<'a, ByteStr<'a>>),
    /// The next data in a SASL exchange, which [`scram::Client`](crate::scram::Client) answers.
    SaslContinue(Secret<'a>),
    /// The last data in a SASL exchange.
    SaslFinal(Secret<'a>),
    /// Another method, by its number and what follows that.
    Other(u32, Secret<'a>),
}

impl<'a> Authentication<'a> {
    /// Reads the body of an Authentication.
    pub fn read(body: &'a [u8]) -> Result<Authentication<'a>, Fault> {
        let RawAuthentication { method, content } = RawAuthentication::read(checked(body)?)?;
        Ok(match method {
            0 => Authentication::Ok,
            2 => Authentication::KerberosV5,
            3 => Authentication::CleartextPassword,
            5 => Authentication::Md5Password(u32_at(body, METHOD)?.to_be_bytes()),
            6 => Authentication::ScmCredential,
            7 => Authentication::Gss,
            8 => Authentication::GssContinue(Secret(content)),
            9 => Authentication::Sspi,
            10 => Authentication::Sasl(mechanisms(content)),
            11 => Authentication::SaslContinue(Secret(content)),
            12 => Authentication::SaslFinal(Secret(content)),
            method => Authentication::Other(method, Secret(content)),
        })
    }

    /// The number of the method.
    pub fn method(&self) -> u32 {
        match self {
            Authentication::Ok => 0,
            Authentication::KerberosV5 => 2,
            Authentication::CleartextPassword => 3,
            Authentication::Md5Password(_) => 5,
            Authentication::ScmCredential => 6,
            Authentication::Gss => 7,
            Authentication::GssContinue(_) => 8,
            Authentication::Sspi => 9,
            Authentication::Sasl(_) => 10,
            Authentication::SaslContinue(_) => 11,
            Authentication::SaslFinal(_) => 12,
            Authentication::Other(method, _) => *method,
        }
    }

    /// Appends the message.
    ///
    /// Refused with [`TextHoldsNul`](Refusal::TextHoldsNul) where the name of a mechanism holds a NUL or is
    /// empty.
    pub fn write<B: Buffer>(&self, out: &mut B) -> Result<(), Refusal> {
        let content = match self {
            Authentication::Md5Password(salt) => &salt[..],
            Authentication::Sasl(mechanisms) => {
                return put_answer(&OutboundSasl { mechanisms }, out)
            }
            Authentication::GssContinue(data)
            | Authentication::SaslContinue(data)
            | Authentication::SaslFinal(data)
            | Authentication::Other(_, data) => data.0,
            _ => b"",
        };
        put_sound(b'R', Then(Number32(self.method()), Slice(content)), Ok(()), out)
    }

    /// Whether the request belongs to a secret: it carries data of an exchange.
    pub fn is_secret(&self) -> bool {
        match self {
            Authentication::Other(_, content) => !content.0.is_empty(),
            Authentication::GssContinue(_)
            | Authentication::SaslContinue(_)
            | Authentication::SaslFinal(_) => true,
            _ => false,
        }
    }
}

/// The names of the mechanisms that are offered, up to an empty one.
fn mechanisms(names: &[u8]) -> List<'_, ByteStr<'_>> {
    let mut rest = names;
    let next = || {
        let (name, after) = split_raw_name(rest)?;
        rest = after;
        Some(ByteStr(name))
    };
    iter::from_fn(next).collect()
}
