//! Where something listens.

use std::fmt;
use std::path::{Path, PathBuf};
use std::str::FromStr;

/// What the name of a Unix socket begins with, before its port.
const SOCKET: &str = ".s.PGSQL.";

/// A host with a port, or a Unix socket.
#[derive(Clone, Debug, PartialEq, Eq)]
pub enum Address {
    Tcp { host: String, port: u16 },
    Unix(PathBuf),
}

impl Address {
    /// A port of 127.0.0.1.
    pub fn local(port: u16) -> Address {
        Address::Tcp { host: "127.0.0.1".to_owned(), port }
    }

    /// The Unix socket of a port in a folder.
    pub fn in_folder(folder: &Path, port: u16) -> Address {
        Address::Unix(folder.join(format!("{SOCKET}{port}")))
    }

    /// A host as libpq takes it: a name, a number, or the folder of a Unix socket.
    pub fn of_server(host: &str, port: u16) -> Address {
        match host.starts_with('/') {
            true => Address::in_folder(Path::new(host), port),
            false => Address::Tcp { host: host.to_owned(), port },
        }
    }

    /// The host and the port by which a client of this machine finds what listens there, as libpq takes them. A socket of another
    /// name than the usual one has none.
    pub fn for_client(&self) -> Option<(String, u16)> {
        match self {
            Address::Tcp { host, port } => {
                let host = match host.as_str() {
                    "0.0.0.0" => "127.0.0.1",
                    "::" => "::1",
                    host => host,
                };
                Some((host.to_owned(), *port))
            }
            Address::Unix(path) => {
                let (folder, port) = folder_and_port(path)?;
                Some((folder.to_str()?.to_owned(), port.parse().ok()?))
            }
        }
    }
}

/// The folder and the port of a Unix socket that has the usual name.
fn folder_and_port(path: &Path) -> Option<(&Path, &str)> {
    Some((path.parent()?, path.file_name()?.to_str()?.strip_prefix(SOCKET)?))
}

/// `HOST:PORT`, `[V6]:PORT`, `PORT` of 127.0.0.1, a folder with a port (`/run/postgresql:5432`), or a socket's path.
impl FromStr for Address {
    type Err = String;

    fn from_str(text: &str) -> Result<Address, String> {
        let (host, port) = match text.rsplit_once(':') {
            Some((host, port)) => (host, port.parse()),
            None if text.starts_with('/') => return Ok(Address::Unix(PathBuf::from(text))),
            None => ("127.0.0.1", text.parse()),
        };
        let port = port.map_err(|_| "it has no port".to_owned())?;
        if host.starts_with('/') {
            return Ok(Address::in_folder(Path::new(host), port));
        }
        let bare = host.strip_prefix('[').and_then(|it| it.strip_suffix(']'));
        match bare.unwrap_or(host) {
            "" => Err("it has no host".to_owned()),
            host => Ok(Address::Tcp { host: host.to_owned(), port }),
        }
    }
}

/// The host and the port, or the folder and the port, or the path of a socket of another name.
impl fmt::Display for Address {
    fn fmt(&self, f: &mut fmt::Formatter<'_>) -> fmt::Result {
        let path = match self {
            Address::Tcp { host, port } => return write!(f, "{host} port {port}"),
            Address::Unix(path) => path,
        };
        match folder_and_port(path) {
            Some((folder, port)) => write!(f, "{} port {port}", folder.display()),
            None => write!(f, "{}", path.display()),
        }
    }
}

#[cfg(test)]
mod tests {
    use super::*;

    #[test]
    fn an_address_is_a_port_a_host_or_a_socket() {
        let tcp = |host: &str, port| Ok(Address::Tcp { host: host.to_owned(), port });
        let unix = |path: &str| Ok(Address::Unix(PathBuf::from(path)));
        assert_eq!("0".parse(), Ok(Address::local(0)));
        assert_eq!("db.example:5432".parse(), tcp("db.example", 5432));
        assert_eq!("[::1]:5432".parse(), tcp("::1", 5432));
        assert_eq!("::1:5432".parse(), tcp("::1", 5432));
        assert_eq!("/run/pg:5432".parse(), unix("/run/pg/.s.PGSQL.5432"));
        assert_eq!("/run/pg/own".parse(), unix("/run/pg/own"));
        for wrong in ["", ":", ":5432", "[]:5432", "host", "host:", "host:65536", "/run/pg:x"] {
            assert!(wrong.parse::<Address>().is_err(), "{wrong}");
        }
    }

    #[test]
    fn an_address_is_shown_by_its_host_or_folder_and_its_port() {
        let shown = |text: &str| text.parse::<Address>().map(|it| it.to_string());
        assert_eq!(shown("5432"), Ok("127.0.0.1 port 5432".to_owned()));
        assert_eq!(shown("/run/pg:5432"), Ok("/run/pg port 5432".to_owned()));
        assert_eq!(shown("/run/pg/own"), Ok("/run/pg/own".to_owned()));
    }
}
