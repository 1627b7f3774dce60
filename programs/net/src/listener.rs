//! What clients connect to.

use crate::stream::tune;
use crate::{AcceptedStream, Address, ExitStatus, Failure};
use std::io;
use std::os::unix::fs::FileTypeExt;
use std::os::unix::net::UnixStream as StdUnixStream;
use std::path::{Path, PathBuf};
use tokio::net::{TcpListener, UnixListener};

/// A socket that clients connect to. That of a path is taken away at the end.
pub enum Listener {
    Tcp(TcpListener),
    Unix(UnixListener, PathBuf),
}

/// Whether a path is a Unix socket on which nothing listens any more, as one is left of a process that was killed.
fn is_abandoned(path: &Path) -> bool {
    let is_socket = std::fs::symlink_metadata(path).is_ok_and(|it| it.file_type().is_socket());
    is_socket
        && matches!(StdUnixStream::connect(path), Err(why) if why.kind() == io::ErrorKind::ConnectionRefused)
}

impl Listener {
    pub async fn bind(address: &Address) -> Result<Listener, Failure> {
        let (name, bound) = match address {
            Address::Tcp { host, port } => (
                format!("port {port} of {host}"),
                TcpListener::bind((host.as_str(), *port)).await.map(Listener::Tcp),
            ),
            Address::Unix(path) => {
                if is_abandoned(path) {
                    let _ = std::fs::remove_file(path);
                }
                let listener = UnixListener::bind(path);
                (path.display().to_string(), listener.map(|it| Listener::Unix(it, path.clone())))
            }
        };
        bound.map_err(|why| {
            Failure::new(ExitStatus::Unreachable, format!("{name} can't be used: {why}"))
        })
    }

    /// Where it listens, with the port that was chosen where 0 was asked for.
    pub fn address(&self) -> io::Result<Address> {
        Ok(match self {
            Listener::Tcp(it) => {
                let at = it.local_addr()?;
                Address::Tcp { host: at.ip().to_string(), port: at.port() }
            }
            Listener::Unix(_, path) => Address::Unix(path.clone()),
        })
    }

    /// The next client, with its address as PostgreSQL's log has it.
    pub async fn accept(&self) -> io::Result<(AcceptedStream, String)> {
        match self {
            Listener::Tcp(it) => {
                let (stream, peer) = it.accept().await?;
                tune(&stream);
                Ok((AcceptedStream::Tcp(stream.into_std()?), peer.to_string()))
            }
            Listener::Unix(it, _) => {
                let (stream, _) = it.accept().await?;
                Ok((AcceptedStream::Unix(stream.into_std()?), "[local]".to_owned()))
            }
        }
    }
}

impl Drop for Listener {
    fn drop(&mut self) {
        if let Listener::Unix(_, path) = self {
            let _ = std::fs::remove_file(path);
        }
    }
}
