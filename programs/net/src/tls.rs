//! TLS with clients.

use crate::{OpenError, Stream};
use anyhow::{Context, Result};
use openssl::ssl::{AlpnError, Ssl, SslAcceptor, SslFiletype, SslMethod, SslMode};
use std::path::Path;
use std::pin::Pin;
use tokio_openssl::SslStream;

/// The protocol's name in the negotiation of TLS, after its length.
pub(crate) const PROTOCOL: &[u8] = b"\x0apostgresql";

/// The certificate by which we are a server.
pub struct ServerTls(SslAcceptor);

impl ServerTls {
    pub fn new(certificate: &Path, key: &Path) -> Result<ServerTls> {
        let mut builder = SslAcceptor::mozilla_intermediate_v5(SslMethod::tls_server())?;
        builder
            .set_certificate_chain_file(certificate)
            .with_context(|| format!("{}: no certificate", certificate.display()))?;
        builder
            .set_private_key_file(key, SslFiletype::PEM)
            .with_context(|| format!("{}: no key of the certificate", key.display()))?;
        builder.check_private_key().with_context(|| {
            format!("the key {} isn't of the certificate {}", key.display(), certificate.display())
        })?;
        // A connection on which nothing passes holds no buffers.
        builder.set_mode(SslMode::RELEASE_BUFFERS);
        builder.set_alpn_select_callback(|_, offered| {
            openssl::ssl::select_next_proto(PROTOCOL, offered).ok_or(AlpnError::NOACK)
        });
        Ok(ServerTls(builder.build()))
    }

    /// Takes the handshake of a client. One that begins with it at once has to name the protocol, as a server of
    /// PostgreSQL has it.
    pub(crate) async fn accept(&self, stream: Stream, names: bool) -> Result<Stream, OpenError> {
        let stream = match stream {
            Stream::Tcp(stream) => stream,
            _ => return Err(OpenError::Tls),
        };
        let handshake = |why: &dyn std::fmt::Display| OpenError::Handshake(why.to_string());
        let ssl = Ssl::new(self.0.context()).map_err(|why| handshake(&why))?;
        let mut tls = SslStream::new(ssl, stream).map_err(|why| handshake(&why))?;
        Pin::new(&mut tls).accept().await.map_err(|why| handshake(&why))?;
        if names && tls.ssl().selected_alpn_protocol() != Some(&PROTOCOL[1..]) {
            return Err(OpenError::Handshake("it names no protocol".to_owned()));
        }
        Ok(Stream::Tls(Box::new(tls)))
    }
}
