//! What the server asks of a client that opens a session.

use super::body::body;
use super::items::Items;
use super::{Message, AUTHENTICATION_TAG};
use crate::lacking::{ends, refused, text};
use bytes::Bytes;
use pgmsg::backend::Authentication;
use std::io;

/// The bytes of the number of the method, which all else follows.
const METHOD: usize = 4;

/// Reads the body of an Authentication.
pub(super) fn read(body: Bytes) -> io::Result<Message> {
    let method = Authentication::read(&body)?.method();
    let alone = |message| ends(AUTHENTICATION_TAG, &body).map(|()| message);
    match method {
        0 => alone(Message::AuthenticationOk),
        2 => alone(Message::AuthenticationKerberosV5),
        3 => alone(Message::AuthenticationCleartextPassword),
        5 => AuthenticationMd5PasswordBody::read(body).map(Message::AuthenticationMd5Password),
        6 => alone(Message::AuthenticationScmCredential),
        7 => alone(Message::AuthenticationGss),
        8 => AuthenticationGssContinueBody::read(body).map(Message::AuthenticationGssContinue),
        9 => alone(Message::AuthenticationSspi),
        10 => AuthenticationSaslBody::read(body).map(Message::AuthenticationSasl),
        11 => AuthenticationSaslContinueBody::read(body).map(Message::AuthenticationSaslContinue),
        12 => AuthenticationSaslFinalBody::read(body).map(Message::AuthenticationSaslFinal),
        _ => Err(refused("unknown method of authentication")),
    }
}

body! {
    /// The salt of the digest of a password.
    AuthenticationMd5PasswordBody as b'R', {
        /// The salt.
        salt(self) -> [u8; 4] = self.0.last_chunk().copied().unwrap_or_default();
    }
}

/// A body that is data after the number of the method.
macro_rules! data {
    ($(#[$doc:meta])* $name:ident) => {
        body! {
            $(#[$doc])*
            $name of METHOD, {
                /// The data.
                data(self) -> &[u8] = self.0.get(METHOD..).unwrap_or_default();
            }
        }
    };
}

data! {
    /// Data of an exchange by GSSAPI or SSPI.
    AuthenticationGssContinueBody
}

data! {
    /// The challenge in a SASL exchange.
    AuthenticationSaslContinueBody
}

data! {
    /// The end of a SASL exchange.
    AuthenticationSaslFinalBody
}

body! {
    /// The mechanisms of SASL that the server offers.
    AuthenticationSaslBody of METHOD, {
        /// The names of the mechanisms.
        mechanisms(self) -> SaslMechanisms<'_> = Items::new(mechanisms(&self.0));
    }
}

/// The names of mechanisms of SASL.
pub type SaslMechanisms<'a> = Items<'a, &'a str>;

fn mechanisms(body: &[u8]) -> io::Result<Vec<&str>> {
    match Authentication::read(body)? {
        Authentication::Sasl(mechanisms) => {
            ends(AUTHENTICATION_TAG, body)?;
            mechanisms.iter().map(|&it| text(it)).collect()
        }
        _ => Err(refused("not an offer of mechanisms")),
    }
}
