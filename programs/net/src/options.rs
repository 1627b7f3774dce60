//! Options that programs share.

use crate::ssl_mode::SYSTEM;
use crate::{Address, ExitStatus, Failure, Listener, ServerTls, SslMode, Upstream, Workers};
use clap::{Args, ValueEnum};
use std::env;
use std::path::{Path, PathBuf};

/// The most threads.
const THREADS_MOST: u64 = 64;
/// The folders that have a server's socket, as Debian's psql or the original one would look for it.
const FOLDERS: [&str; 2] = ["/var/run/postgresql", "/tmp"];

/// Where clients connect, and with which threads they are served.
#[derive(Args, Debug)]
pub struct ListenOptions {
    /// Accept connections on the Unix socket .s.PGSQL.LISTEN_PORT in this folder, and not on a TCP port
    #[arg(long, value_name = "FOLDER")]
    pub folder: Option<PathBuf>,
    /// Accept connections at this address too: HOST:PORT, with an IPv6 address in brackets; a PORT of 127.0.0.1; FOLDER:PORT
    /// for a Unix socket; or the path of one. Can be given more than once
    #[arg(long, value_name = "ADDRESS")]
    pub listen: Vec<Address>,
    /// Accept TLS from clients that ask for it or begin with it. The file has the server's certificate and those that lead to
    /// its root. Clients that don't use TLS are accepted too
    #[arg(long, value_name = "FILE", requires = "key")]
    pub cert: Option<PathBuf>,
    /// The key of that certificate
    #[arg(long, value_name = "FILE", requires = "cert")]
    pub key: Option<PathBuf>,
    /// The number of threads that serve clients [default: half the number of processors]
    #[arg(long, value_name = "N", value_parser = clap::value_parser!(u64).range(1..=THREADS_MOST))]
    pub threads: Option<u64>,
}

/// What listens.
pub struct Listeners {
    pub listeners: Vec<Listener>,
    pub tls: Option<ServerTls>,
}

impl ListenOptions {
    /// The addresses that are asked for, with that of the port that is named without an option.
    fn addresses(&self, port: Option<u16>) -> Result<Vec<Address>, Failure> {
        let named = match (&self.folder, port) {
            (Some(folder), Some(port)) if port > 0 => Some(Address::in_folder(folder, port)),
            (None, port) => port.map(Address::local),
            _ => {
                return Err(Failure::new(
                    ExitStatus::Usage,
                    "a folder's socket has a port from 1 on",
                ))
            }
        };
        Ok(named.into_iter().chain(self.listen.iter().cloned()).collect())
    }

    /// Listens, and tells where.
    pub async fn bind(
        &self,
        port: Option<u16>,
        mut tell: impl FnMut(Address),
    ) -> Result<Listeners, Failure> {
        let local = |why| Failure::new(ExitStatus::Local, format!("TLS with clients: {why:#}"));
        let tls = match (&self.cert, &self.key) {
            (Some(cert), Some(key)) => Some(ServerTls::new(cert, key).map_err(local)?),
            _ => None,
        };
        let mut listeners = Vec::new();
        for address in self.addresses(port)? {
            let listener = Listener::bind(&address).await?;
            let address = listener.address().unwrap_or(address);
            tell(address);
            listeners.push(listener);
        }
        Ok(Listeners { listeners, tls })
    }

    /// The threads that serve clients.
    pub fn workers(&self) -> std::io::Result<Workers> {
        let processors = std::thread::available_parallelism().map_or(1, |it| it.get() as u64);
        let usual = processors.div_ceil(2).min(THREADS_MOST);
        Workers::new(self.threads.unwrap_or(usual) as usize)
    }
}

/// Where the server is, and how it is reached.
#[derive(Args, Debug)]
pub struct ServerOptions {
    /// The server's host, or the folder of its Unix socket [default: PGHOST, else a usual folder with the socket, else
    /// localhost]
    #[arg(short = 'h', value_name = "HOST")]
    host: Option<String>,
    /// The server's port [default: PGPORT, else 5432]
    #[arg(short = 'p', value_name = "PORT")]
    port: Option<String>,
    /// Whether the connection to the server is encrypted and its certificate verified, as in libpq [default: PGSSLMODE, else
    /// verify-full with the roots of the system, else disable]
    #[arg(long, value_enum, value_name = "MODE")]
    sslmode: Option<SslMode>,
    /// A file of trusted root certificates, or `system` for those of the system, which need verify-full [default:
    /// PGSSLROOTCERT, else ~/.postgresql/root.crt]
    #[arg(long, value_name = "FILE")]
    sslrootcert: Option<PathBuf>,
}

/// A variable of the environment; an empty one counts as none.
fn variable(name: &str) -> Option<String> {
    env::var(name).ok().filter(|value| !value.is_empty())
}

/// A folder that has the server's socket, or this host.
fn usual_host(port: u16) -> String {
    let has_socket = |folder: &&str| Path::new(folder).join(format!(".s.PGSQL.{port}")).exists();
    FOLDERS.into_iter().find(has_socket).unwrap_or("localhost").to_owned()
}

impl ServerOptions {
    /// Whether a host or a port is named.
    pub fn is_given(&self) -> bool {
        self.host.is_some() || self.port.is_some()
    }

    /// The address that is asked for, or the usual one.
    pub fn address(&self) -> Result<Address, Failure> {
        let port = self.port.clone().or_else(|| variable("PGPORT"));
        let port = port.as_deref().unwrap_or("5432");
        let number = port.parse().ok().filter(|&number| number > 0).ok_or_else(|| {
            Failure::new(ExitStatus::Usage, format!("no port has the number {port}"))
        })?;
        let host = self.host.clone().or_else(|| variable("PGHOST"));
        Ok(Address::of_server(&host.unwrap_or_else(|| usual_host(number)), number))
    }

    /// The mode that is named, or the usual one with these roots. As in libpq the roots of the system, which would trust
    /// any host that has a certificate, have no weaker mode than `verify-full`.
    fn mode(&self, roots: Option<&Path>) -> Result<SslMode, Failure> {
        let usage = |words: String| Failure::new(ExitStatus::Usage, words);
        let of_name = |name: String| {
            let mode = SslMode::from_str(&name, false);
            mode.map_err(|_| usage(format!("no sslmode has the name {name}")))
        };
        let named = match self.sslmode {
            None => variable("PGSSLMODE").map(of_name).transpose()?,
            mode => mode,
        };
        match (roots == Some(Path::new(SYSTEM)), named) {
            (true, None | Some(SslMode::VerifyFull)) => Ok(SslMode::VerifyFull),
            (true, _) => {
                Err(usage("the roots of the system need the sslmode verify-full".to_owned()))
            }
            (false, named) => Ok(named.unwrap_or(SslMode::Disable)),
        }
    }

    /// Finds the server.
    pub async fn find(&self) -> Result<Upstream, Failure> {
        let roots = self.sslrootcert.clone().or_else(|| variable("PGSSLROOTCERT").map(Into::into));
        let mode = self.mode(roots.as_deref())?;
        Upstream::find(self.address()?, mode, roots.as_deref()).await
    }

    /// Finds a server to which bytes are passed on unread, encrypted or not.
    pub async fn find_unread(&self) -> Result<Upstream, Failure> {
        Upstream::find(self.address()?, SslMode::Disable, None).await
    }
}
