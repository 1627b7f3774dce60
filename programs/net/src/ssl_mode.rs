//! Which servers are trusted.

use crate::{ExitStatus, Failure};
use clap::ValueEnum;
use openssl::ssl::{SslConnector, SslMethod, SslMode as Mode, SslVerifyMode, SslVersion};
use openssl::x509::store::X509StoreBuilder;
use std::path::{Path, PathBuf};

/// Whether the connection to the server is encrypted, as libpq's `sslmode`.
#[derive(Clone, Copy, Debug, PartialEq, Eq, ValueEnum)]
pub enum SslMode {
    /// Never.
    Disable,
    /// If the server refuses the session without encryption.
    Allow,
    /// If the server offers it, unless it then refuses the session.
    Prefer,
    /// Always; if there is a file of roots, the server's certificate is verified as with verify-ca.
    Require,
    /// Always, with a certificate that leads to a trusted root.
    VerifyCa,
    /// Always, with such a certificate for the host that is named.
    VerifyFull,
}

/// The name by which libpq asks for the system's roots.
pub(crate) const SYSTEM: &str = "system";

/// The file of roots that libpq looks for.
fn usual_roots() -> Option<PathBuf> {
    let home = std::env::var_os("HOME").filter(|home| !home.is_empty())?;
    Some(Path::new(&home).join(".postgresql/root.crt"))
}

impl SslMode {
    /// Whether no connection is taken without encryption.
    pub(crate) fn requires(self) -> bool {
        self.verifies() || self == SslMode::Require
    }

    fn verifies(self) -> bool {
        matches!(self, SslMode::VerifyCa | SslMode::VerifyFull)
    }
}

fn fail(why: impl std::fmt::Display) -> Failure {
    Failure::new(ExitStatus::Local, format!("TLS with the server: {why}"))
}

/// What connects by TLS: it trusts the roots of a file, of the system, or of libpq's usual file. As in libpq a mode that
/// verifies needs them, and `require` verifies where they are there.
pub(crate) fn connector(mode: SslMode, roots: Option<&Path>) -> Result<SslConnector, Failure> {
    let mut builder = SslConnector::builder(SslMethod::tls_client()).map_err(fail)?;
    builder.set_min_proto_version(Some(SslVersion::TLS1_2)).map_err(fail)?;
    builder.set_alpn_protos(crate::tls::PROTOCOL).map_err(fail)?;
    builder.set_mode(Mode::RELEASE_BUFFERS);
    let is_system = roots == Some(Path::new(SYSTEM));
    let file = roots.map(Path::to_owned).or_else(usual_roots);
    let file = file.filter(|file| !is_system && file.exists());
    if !is_system {
        // A connector begins with the roots of the system.
        let none = X509StoreBuilder::new().map_err(fail)?.build();
        builder.set_cert_store(none);
    }
    if let Some(file) = &file {
        builder
            .set_ca_file(file)
            .map_err(|why| fail(format!("no certificates are in {}: {why}", file.display())))?;
    } else if mode.verifies() && !is_system {
        return Err(fail(
            "there is no file of trusted roots: name one by --sslrootcert, or `system`",
        ));
    }
    let verifies = mode.verifies() || (mode == SslMode::Require && file.is_some());
    builder.set_verify(match verifies {
        true => SslVerifyMode::PEER,
        false => SslVerifyMode::NONE,
    });
    Ok(builder.build())
}
