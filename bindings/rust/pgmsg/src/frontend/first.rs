//! The first message of a connection, which has no tag.

use super::Message;
use crate::body::checked;
use crate::buffer::{put_text, Buffer};
use crate::byte_str::{ByteStr, Secret};
use crate::error::{Fault, Refusal};
use crate::list::List;
use pgmsg_core::pg_base::io::part::{Byte, Number32, Then};
use pgmsg_core::pg_send::message::settings::{check_settings, AsSetting};
use pgmsg_core::pg_send::message::untagged::{untagged_len, Untagged};
use pgmsg_core::pg_send::message::{self as sent, settings, PROTOCOL_VERSION};
use pgmsg_core::pg_server::frontend::{FirstMessageRef, FrontendFault};

/// A session that is opened: StartupMessage.
#[derive(Clone, Debug, Default, PartialEq, Eq)]
pub struct Startup<'a> {
    /// The minor version of version 3 of the protocol: 0 for protocol 3.0.
    pub minor: u16,
    /// The settings of the session, of which the server requires `user`.
    pub settings: Settings<'a>,
}

/// A setting of a session.
#[derive(Clone, Copy, Debug, Default, PartialEq, Eq)]
pub struct Setting<'a> {
    /// Its name, which is not empty.
    pub name: ByteStr<'a>,
    /// Its value.
    pub value: ByteStr<'a>,
}

impl AsSetting for Setting<'_> {
    fn name(&self) -> &[u8] {
        &self.name
    }

    fn value(&self) -> &[u8] {
        &self.value
    }
}

/// The settings of a session, in the order of the message.
pub type Settings<'a> = List<'a, Setting<'a>>;

impl<'a> Settings<'a> {
    /// The value of the last setting of a name, which is the one that holds in PostgreSQL's servers.
    pub fn value(&self, name: impl AsRef<[u8]>) -> Option<ByteStr<'a>> {
        let is_named = |setting: &&Setting<'_>| setting.name.0 == name.as_ref();
        Some(self.iter().rev().find(is_named)?.value)
    }
}

impl<'a> Startup<'a> {
    /// A session by protocol 3.0 with these settings, names with values.
    ///
    /// ```
    /// # use pgmsg::frontend::Startup;
    /// let startup = Startup::new(&[("user", "bob"), ("client_encoding", "UTF8")]);
    /// assert_eq!(startup.settings.value("user"), Some("bob".into()));
    /// # let mut out = Vec::new();
    /// startup.write(&mut out)?;
    /// # Ok::<(), pgmsg::Refusal>(())
    /// ```
    pub fn new<T: AsRef<[u8]> + ?Sized>(settings: &[(&'a T, &'a T)]) -> Startup<'a> {
        let settings = settings
            .iter()
            .map(|&(name, value)| Setting { name: name.into(), value: value.into() });
        Startup { minor: 0, settings: settings.collect() }
    }

    /// Appends the message.
    ///
    /// Refused with [`TextHoldsNul`](Refusal::TextHoldsNul) where a name or a value holds a NUL, since the
    /// server would read the rest of it as another setting, and where a name is empty, since the settings
    /// would end there.
    pub fn write<B: Buffer>(&self, out: &mut B) -> Result<(), Refusal> {
        let version = Number32(PROTOCOL_VERSION + u32::from(self.minor));
        let parts = Then(version, Then(settings::Settings(&self.settings[..]), Byte(0)));
        let len = untagged_len(&parts)?;
        check_settings(&self.settings)?;
        put_text(&Untagged { parts, len }, len, out)
    }
}

/// A session whose query is to be cancelled, as its BackendKeyData names it.
#[derive(Clone, Copy, Debug, Default, PartialEq, Eq)]
pub struct CancelRequest<'a> {
    /// The process of the session.
    pub process_id: u32,
    /// Its key: 4 bytes in protocol 3.0, and up to 256 from 3.2 on.
    pub secret_key: Secret<'a>,
}

impl CancelRequest<'_> {
    /// Appends the message.
    ///
    /// Refused with [`BadKeyLength`](Refusal::BadKeyLength) where the key has fewer than 4 bytes, or more
    /// than 256.
    pub fn write<B: Buffer>(&self, out: &mut B) -> Result<(), Refusal> {
        let (process_id, secret_key) = (self.process_id, self.secret_key.0);
        let cancel = sent::CancelRequest { process_id, secret_key };
        put_text(&cancel, cancel.checked_len()?, out)
    }
}

/// Appends an SSLRequest.
pub(super) fn put_ssl_request<B: Buffer>(out: &mut B) -> Result<(), Refusal> {
    put_text(&sent::SslRequest, sent::CODE_LENGTH, out)
}

/// Appends a GSSENCRequest.
pub(super) fn put_gss_enc_request<B: Buffer>(out: &mut B) -> Result<(), Refusal> {
    put_text(&sent::GssEncRequest, sent::CODE_LENGTH, out)
}

/// Reads the body of a message without a tag.
pub(super) fn read_first(tag: Option<u8>, body: &[u8]) -> Result<Message<'_>, Fault> {
    if let Some(tag) = tag {
        return Err(FrontendFault::UnknownTag(tag).into());
    }
    Ok(match FirstMessageRef::read(checked(body)?)? {
        FirstMessageRef::Startup { minor, settings } => {
            let setting = |(name, value)| Setting { name: ByteStr(name), value: ByteStr(value) };
            Message::Startup(Startup { minor, settings: settings.map(setting).collect() })
        }
        FirstMessageRef::CancelRequest(cancel) => Message::CancelRequest(CancelRequest {
            process_id: cancel.process_id,
            secret_key: Secret(cancel.secret_key),
        }),
        FirstMessageRef::SslRequest => Message::SslRequest,
        FirstMessageRef::GssEncRequest => Message::GssEncRequest,
    })
}
