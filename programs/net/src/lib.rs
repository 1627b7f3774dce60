//! Addresses, listeners and TLS of either side, for what stands between clients of PostgreSQL and its servers, the command
//! that such a program runs, and how the program ends.
#![forbid(unsafe_code)]

mod address;
mod client_command;
mod client_environment;
mod database_url;
mod exit;
mod listener;
mod opening;
mod options;
mod ssl_mode;
mod stderr;
mod stream;
mod tls;
mod upstream;
mod workers;

pub use address::Address;
pub use client_command::ClientCommand;
pub use client_environment::ClientEnvironment;
pub use exit::{ignore_file_size, ExitStatus, Failure, ShutdownSignals};
pub use listener::Listener;
pub use opening::{open, read_start, ConnectionStart, FirstMessage, OpenError, OpenedClient};
pub use options::{ListenOptions, Listeners, ServerOptions};
pub use ssl_mode::SslMode;
pub use stderr::StderrWriter;
pub use stream::{AcceptedStream, Stream};
pub use tls::ServerTls;
pub use upstream::Upstream;
pub use workers::{let_others, most_sessions, Workers};
