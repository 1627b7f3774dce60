//! The variables of the environment by which the clients of a command find what listens.

use crate::database_url::redirect;
use crate::{Address, ExitStatus, Failure};
use std::env;
use std::fmt::Write;
use std::process::Command;

/// The URL of a database that many programs take.
const URL: &str = "DATABASE_URL";
/// Those that lead elsewhere before PGHOST counts.
const ELSEWHERE: [&str; 2] = ["PGHOSTADDR", "PGSERVICE"];
/// Those of encryption, with what they are where there is none.
const ENCRYPTION: [(&str, Option<&str>); 5] = [
    ("PGSSLMODE", Some("disable")),
    ("PGGSSENCMODE", Some("disable")),
    ("PGCHANNELBINDING", Some("disable")),
    ("PGSSLNEGOTIATION", None),
    ("PGSSLROOTCERT", None),
];

/// Where clients connect, and what they find there.
pub struct ClientEnvironment {
    host: String,
    port: u16,
    is_encrypted: bool,
    asks_password: bool,
}

impl ClientEnvironment {
    /// That of an address, where clients may ask for encryption or not, and are asked for a password or not.
    pub fn new(
        address: &Address,
        is_encrypted: bool,
        asks_password: bool,
    ) -> Result<ClientEnvironment, Failure> {
        let (host, port) = address.for_client().ok_or_else(|| {
            let words = format!(
                "a command finds no socket {address}: it needs a port, or a folder with a port"
            );
            Failure::new(ExitStatus::Usage, words)
        })?;
        Ok(ClientEnvironment { host, port, is_encrypted, asks_password })
    }

    /// Sets the variables of a command.
    pub fn set(&self, command: &mut Command) {
        command.env("PGHOST", &self.host).env("PGPORT", self.port.to_string());
        for name in ELSEWHERE {
            command.env_remove(name);
        }
        for (name, value) in ENCRYPTION.into_iter().filter(|_| !self.is_encrypted) {
            match value {
                Some(value) => command.env(name, value),
                None => command.env_remove(name),
            };
        }
        if !self.asks_password {
            command.env_remove("PGREQUIREAUTH");
        }
        let url = env::var(URL).ok();
        if let Some(url) = url.and_then(|it| redirect(&it, &self.in_url(), self.is_encrypted)) {
            command.env(URL, url);
        }
    }

    /// The host and the port as a URL has them: those of a folder are percent-encoded.
    fn in_url(&self) -> String {
        let mut place = String::new();
        for byte in self.host.bytes() {
            match byte {
                b'.' | b'-' | b'_' => place.push(byte.into()),
                _ if byte.is_ascii_alphanumeric() => place.push(byte.into()),
                b':' => place.push(':'),
                _ => drop(write!(place, "%{byte:02X}")),
            }
        }
        match place.contains(':') {
            true => format!("[{place}]:{}", self.port),
            false => format!("{place}:{}", self.port),
        }
    }
}

#[cfg(test)]
mod tests {
    use super::*;

    fn of(address: &str) -> Option<(String, String)> {
        let address = address.parse::<Address>().unwrap();
        let it = ClientEnvironment::new(&address, false, false).ok()?;
        let mut command = Command::new("");
        it.set(&mut command);
        let host = command.get_envs().find(|(name, _)| *name == "PGHOST")?.1?;
        Some((host.to_str()?.to_owned(), it.in_url()))
    }

    #[test]
    fn clients_find_what_listens() {
        for (address, host, in_url) in [
            ("5433", "127.0.0.1", "127.0.0.1:5433"),
            ("0.0.0.0:5433", "127.0.0.1", "127.0.0.1:5433"),
            ("[::]:5433", "::1", "[::1]:5433"),
            ("/run/a-b:5433", "/run/a-b", "%2Frun%2Fa-b:5433"),
        ] {
            assert_eq!(of(address), Some((host.to_owned(), in_url.to_owned())));
        }
        assert_eq!(of("/run/own"), None);
    }
}
