//! A client's connection, and the one to the server that it is passed on to.

use crate::encryption;
use crate::pass::{pass, refuse, Link, LinkStart};
use crate::proxy::Proxy;
use crate::record_sink::Stopped;
use net::{ExitStatus, FirstMessage, OpenError, OpenedClient, Stream};
use recording::Side;
use std::sync::atomic::Ordering;
use std::time::Duration;
use tokio::time::{timeout_at, Instant};

/// How long a client's first message and the connection to the server may take.
pub const OPENING: Duration = Duration::from_secs(60);

/// Why a session ends before anything passes.
pub enum LinkError {
    /// The client hung up.
    Gone,
    /// The client is refused, for these words about it.
    Refused(String, ExitStatus),
    /// There is no connection to the server.
    Unreachable(String),
    /// All ends.
    Stopped,
}

impl From<Stopped> for LinkError {
    fn from(_: Stopped) -> LinkError {
        LinkError::Stopped
    }
}

impl From<OpenError> for LinkError {
    fn from(why: OpenError) -> LinkError {
        match why {
            OpenError::Broken(_) => LinkError::Gone,
            why => LinkError::Refused(why.to_string(), ExitStatus::Protocol),
        }
    }
}

impl LinkError {
    pub fn late() -> LinkError {
        LinkError::Refused("took too long to open its session".to_owned(), ExitStatus::Broken)
    }
}

/// A client that was accepted.
pub struct ProxySession<'p> {
    pub proxy: &'p Proxy,
    pub peer: String,
    /// The number of its connection; 0 where that isn't recorded.
    pub number: u32,
    begun: Instant,
}

impl<'p> ProxySession<'p> {
    pub fn new(proxy: &'p Proxy, peer: String) -> ProxySession<'p> {
        ProxySession { proxy, peer, number: 0, begun: Instant::now() }
    }

    /// Serves the client until both sides have ended.
    pub async fn serve(mut self, client: Stream) {
        let (status, first_end) = match self.link(client).await {
            Ok(link) => {
                self.proxy.sessions.fetch_add(1, Ordering::Relaxed);
                match pass(&self.proxy.sink, self.number, self.proxy.leaves_out, link).await {
                    Ok(()) => (ExitStatus::Ok, None),
                    Err(Stopped) => return,
                }
            }
            Err(LinkError::Stopped) => return,
            Err(LinkError::Gone) => (ExitStatus::Ok, Some(Side::Client)),
            Err(LinkError::Refused(words, status)) => {
                self.proxy.stderr.say(format_args!("a client at {} {words}", self.peer));
                (status, Some(Side::Client))
            }
            Err(LinkError::Unreachable(words)) => {
                self.proxy.stderr.say(words);
                (ExitStatus::Unreachable, Some(Side::Server))
            }
        };
        if let Some(side) = first_end.filter(|_| self.number > 0) {
            if self.proxy.sink.close_connection(self.number, side).await.is_err() {
                return;
            }
        }
        self.proxy.session_ended(self.number, status);
    }

    /// Takes the client's first message, and connects to the server.
    async fn link(&mut self, client: Stream) -> Result<Link, LinkError> {
        let (proxy, begun) = (self.proxy, self.begun);
        if proxy.passes_encryption {
            return tokio::select! {
                link = encryption::link(self, client) => link,
                () = proxy.run_out(begun) => Err(LinkError::late()),
            };
        }
        let opened = tokio::select! {
            opened = net::open(client, proxy.tls.as_ref()) => opened?.ok_or(LinkError::Gone)?,
            () = proxy.run_out(begun) => return Err(LinkError::late()),
        };
        let OpenedClient { stream: mut client, bytes: from_client, first, length } = opened;
        let server = self.connect(&mut client, matches!(first, FirstMessage::Startup)).await?;
        self.count(&first);
        let from_server = Vec::new();
        let link = Link { client, server, from_client, from_server, begin: LinkStart::First };
        match first {
            FirstMessage::Startup => {
                link.start(&proxy.upstream, &proxy.sink, self.number, length).await
            }
            _ => Ok(link),
        }
    }

    /// Counts a request to cancel.
    pub fn count(&self, first: &FirstMessage) {
        if matches!(first, FirstMessage::Cancel) {
            self.proxy.count_cancel();
        }
    }

    /// Records that the connection is opened, and connects to the server. Where that fails, tells it to the client, if that
    /// waits for an answer.
    pub async fn connect(&mut self, client: &mut Stream, waits: bool) -> Result<Stream, LinkError> {
        self.number = self.proxy.sink.open(&self.peer).await?;
        let upstream = &self.proxy.upstream;
        let words = match timeout_at(self.begun + OPENING, upstream.connect()).await {
            Ok(Ok(server)) => return Ok(server),
            Ok(Err(why)) => format!("{why:#}"),
            Err(_) => upstream.is_late(),
        };
        if waits {
            refuse(client, &self.proxy.stderr, &words).await;
        }
        Err(LinkError::Unreachable(words))
    }
}
