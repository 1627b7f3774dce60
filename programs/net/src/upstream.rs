//! Connections to a server.

use crate::ssl_mode::connector;
use crate::stream::tune;
use crate::{Address, ExitStatus, Failure, SslMode, Stream};
use anyhow::{bail, Context, Result};
use openssl::ssl::SslConnector;
use pgmsg::frontend::Message;
use std::io;
use std::net::SocketAddr;
use std::path::{Path, PathBuf};
use std::pin::Pin;
use std::time::Duration;
use tokio::io::{AsyncReadExt, AsyncWriteExt};
use tokio::net::{lookup_host, TcpStream, UnixStream};
use tokio_openssl::SslStream;

/// The tag of an ErrorResponse.
const ERROR: u8 = b'E';
/// How long a Unix socket with a full queue isn't tried again.
const PAUSE: Duration = Duration::from_millis(50);

/// A server, and how it is reached.
pub struct Upstream {
    address: Address,
    endpoint: Endpoint,
    mode: SslMode,
    /// What encrypts, where the mode ever does.
    connector: Option<SslConnector>,
}

/// The addresses of a host, or a path.
enum Endpoint {
    Tcp(String, Vec<SocketAddr>),
    Unix(PathBuf),
}

impl Upstream {
    /// Finds the addresses of the host.
    pub(crate) async fn find(
        address: Address,
        mode: SslMode,
        roots: Option<&Path>,
    ) -> Result<Upstream, Failure> {
        let endpoint = match &address {
            Address::Unix(path) => Endpoint::Unix(path.clone()),
            Address::Tcp { host, port } => {
                let found = lookup_host((host.as_str(), *port)).await.map_err(|why| {
                    Failure::new(
                        ExitStatus::Unreachable,
                        format!("no address of {host} is found: {why}"),
                    )
                })?;
                Endpoint::Tcp(host.clone(), found.collect())
            }
        };
        let encrypts = mode != SslMode::Disable;
        let connector = encrypts.then(|| connector(mode, roots)).transpose()?;
        Ok(Upstream { address, endpoint, mode, connector })
    }

    /// Why there is no session, where the server takes too long.
    pub fn is_late(&self) -> String {
        format!("no connection to {}: it takes too long", self.address)
    }

    /// A connection, encrypted as the mode has it.
    pub async fn connect(&self) -> Result<Stream> {
        let dialled = self.dial().await?;
        match self.mode {
            SslMode::Disable | SslMode::Allow => Ok(dialled),
            SslMode::Prefer => match self.encrypt(dialled).await {
                // As libpq does, once more without.
                Err(_) => self.dial().await,
                encrypted => encrypted,
            },
            _ => self.encrypt(dialled).await,
        }
    }

    /// Whether the mode has another way than that of a connection, for a session that the server refuses over it.
    pub fn has_other_way(&self, refused: &Stream) -> bool {
        match self.mode {
            SslMode::Allow => matches!(refused, Stream::Tcp(_)),
            SslMode::Prefer => refused.is_tls(),
            _ => false,
        }
    }

    /// Says a Startup over a connection. Where the server refuses the session and the mode has another way, says it over another
    /// connection. Gives the connection, and what the server has answered so far.
    pub async fn start(&self, mut server: Stream, startup: &[u8]) -> Result<(Stream, Vec<u8>)> {
        let mut answer = Vec::new();
        say(&mut server, startup).await?;
        if self.has_other_way(&server) {
            server.read_buf(&mut answer).await?;
            if answer.first() == Some(&ERROR) {
                answer.clear();
                server = self.connect_otherwise().await?;
                say(&mut server, startup).await?;
            }
        }
        Ok((server, answer))
    }

    /// A connection in the other way of the mode.
    async fn connect_otherwise(&self) -> Result<Stream> {
        let dialled = self.dial().await?;
        match self.mode {
            SslMode::Allow => self.encrypt(dialled).await,
            _ => Ok(dialled),
        }
    }

    /// A connection that isn't encrypted.
    async fn dial(&self) -> Result<Stream> {
        let dialled = match &self.endpoint {
            Endpoint::Unix(path) => connect_unix(path).await,
            Endpoint::Tcp(_, all) => connect_tcp(all).await,
        };
        dialled.with_context(|| format!("no connection to {}", self.address))
    }

    /// The same connection, encrypted; one over a Unix socket stays as it is.
    async fn encrypt(&self, dialled: Stream) -> Result<Stream> {
        let encrypted = match (dialled, &self.endpoint, &self.connector) {
            (Stream::Tcp(stream), Endpoint::Tcp(host, _), Some(connector)) => {
                self.ask(host, stream, connector).await
            }
            (other, ..) => return Ok(other),
        };
        encrypted.with_context(|| format!("no connection to {}", self.address))
    }

    /// Asks a server for TLS, and takes its certificate.
    async fn ask(
        &self,
        host: &str,
        mut stream: TcpStream,
        connector: &SslConnector,
    ) -> Result<Stream> {
        let mut request = Vec::new();
        Message::SslRequest.write(&mut request)?;
        stream.write_all(&request).await?;
        // One byte and no more: what follows is the handshake's (CVE-2021-23222).
        match stream.read_u8().await? {
            b'S' => {}
            b'N' if !self.mode.requires() => return Ok(Stream::Tcp(stream)),
            b'N' => bail!("the server has no TLS"),
            _ => bail!("the server doesn't answer a request for TLS"),
        }
        let verifies_host = self.mode == SslMode::VerifyFull;
        let ssl = connector.configure()?.verify_hostname(verifies_host).into_ssl(host)?;
        let mut tls = SslStream::new(ssl, stream)?;
        let connected = Pin::new(&mut tls).connect().await;
        connected.with_context(|| match tls.ssl().verify_result() {
            openssl::x509::X509VerifyResult::OK => "TLS fails".to_owned(),
            why => format!("the server's certificate is refused: {why}"),
        })?;
        Ok(Stream::Tls(Box::new(tls)))
    }
}

async fn say(server: &mut Stream, bytes: &[u8]) -> io::Result<()> {
    server.write_all(bytes).await?;
    server.flush().await
}

async fn connect_tcp(all: &[SocketAddr]) -> io::Result<Stream> {
    let stream = TcpStream::connect(all).await?;
    tune(&stream);
    Ok(Stream::Tcp(stream))
}

/// Connects once the queue of a socket has room.
async fn connect_unix(path: &Path) -> io::Result<Stream> {
    loop {
        match UnixStream::connect(path).await {
            Err(why) if why.kind() == io::ErrorKind::WouldBlock => tokio::time::sleep(PAUSE).await,
            connected => return connected.map(Stream::Unix),
        }
    }
}
