//! The passing of both directions of a connection.

use crate::forwarder::{first_end, Forwarder};
use crate::framer::{decoder_of, Framer};
use crate::poll_on_wake::PollOnWake;
use crate::record_sink::{RecordSink, Stopped};
use crate::session::{LinkError, OPENING};
use net::{StderrWriter, Stream, Upstream};
use pgmsg::backend::{Field, FieldKind, Message};
use pgmsg::Decoder;
use recording::{RecordKind, Side};
use std::future::poll_fn;
use std::io;
use std::time::Duration;
use tokio::io::{AsyncRead, AsyncReadExt, AsyncWriteExt};
use tokio::time::timeout;

/// The code of an error: no connection to the server.
const NO_CONNECTION: &str = "08006";
/// How long a client may take to hang up after the server did.
const CLOSING: Duration = Duration::from_secs(2);

/// Both connections, and what came of them that hasn't passed.
pub struct Link {
    pub client: Stream,
    pub server: Stream,
    pub from_client: Vec<u8>,
    pub from_server: Vec<u8>,
    pub begin: LinkStart,
}

/// What passes from the begin of a link on.
#[derive(Clone, Copy, Debug, PartialEq, Eq)]
pub enum LinkStart {
    /// The client's first message.
    First,
    /// Messages of a session that is open.
    Open,
    /// What is encrypted, and isn't read.
    Encrypted,
}

impl Link {
    /// Where the server may be asked again in another way, passes on the Startup of so many bytes that the client has said, and
    /// takes the answer. Without one the client is told so.
    pub async fn start(
        self,
        upstream: &Upstream,
        sink: &RecordSink,
        number: u32,
        length: usize,
    ) -> Result<Link, LinkError> {
        if !upstream.has_other_way(&self.server) {
            return Ok(self);
        }
        let (startup, rest) = self.from_client.split_at(length);
        sink.take(number, &[(RecordKind::Bytes(Side::Client), startup)]).await?;
        let (mut client, from_client) = (self.client, rest.to_vec());
        let words = match timeout(OPENING, upstream.start(self.server, startup)).await {
            Ok(Ok((server, from_server))) => {
                return Ok(Link {
                    client,
                    server,
                    from_client,
                    from_server,
                    begin: LinkStart::Open,
                });
            }
            Ok(Err(why)) => format!("{why:#}"),
            Err(_) => upstream.is_late(),
        };
        refuse(&mut client, &sink.stderr, &words).await;
        Err(LinkError::Unreachable(words))
    }
}

/// Passes both ways, and records what passes as a connection that was opened, until the server has ended and its last words are
/// passed on. Passwords may be left out.
pub async fn pass(
    sink: &RecordSink,
    number: u32,
    leaves_out: bool,
    link: Link,
) -> Result<(), Stopped> {
    let drops_binding = drops_binding(&link);
    if link.begin == LinkStart::Encrypted {
        sink.take(number, &[(RecordKind::Encrypted, &[])]).await?;
    }
    let forwarder = |side, before: &[u8]| {
        let framer = decoder(side, link.begin);
        let framer = framer.map(|it| Framer::of(it, side, leaves_out, drops_binding));
        Forwarder::new(side, framer, drops_binding, before)
    };
    let mut up = forwarder(Side::Client, &link.from_client);
    let mut down = forwarder(Side::Server, &link.from_server);
    let (mut client, mut server, mut first) = (link.client, link.server, None);
    // To read from TLS may be to write, and the other way round.
    let tells_apart = !client.is_tls() && !server.is_tls();
    let (mut poll_up, mut poll_down) = (PollOnWake::new(tells_apart), PollOnWake::new(tells_apart));
    while !down.is_over() {
        up.look();
        down.look();
        record(sink, number, &up, &down).await?;
        down.drop_binding();
        poll_fn(|cx| {
            let came = poll_up.poll(cx, |cx| up.poll(cx, &mut client, &mut server));
            let answered = poll_down.poll(cx, |cx| down.poll(cx, &mut server, &mut client));
            if came.is_ready() {
                came
            } else {
                answered
            }
        })
        .await;
        if let (None, Some(side)) = (first, first_end(&up, &down)) {
            sink.note_end(number, side);
            first = Some(side);
        }
    }
    sink.close_connection(number, first.unwrap_or(Side::Server)).await?;
    // A socket that is closed before it is read to its end may take back what was written to it.
    let _ = timeout(CLOSING, discard(&mut client)).await;
    Ok(())
}

/// Ends the connection of a client that gets no session by an error, as a server does.
pub async fn refuse(client: &mut Stream, stderr: &StderrWriter, words: &str) {
    let words = stderr.named(words);
    let fields = [
        Field::new(FieldKind::LocalizedSeverity, "FATAL"),
        Field::new(FieldKind::Severity, "FATAL"),
        Field::new(FieldKind::Code, NO_CONNECTION),
        Field::new(FieldKind::Message, &words),
    ];
    let mut error = Vec::new();
    if Message::ErrorResponse(fields.into()).write(&mut error).is_err() {
        return;
    }
    let told = async {
        client.write_all(&error).await?;
        client.shutdown().await?;
        discard(client).await;
        io::Result::Ok(())
    };
    let _ = timeout(CLOSING, told).await;
}

/// Records what is new, most often one record.
async fn record(
    sink: &RecordSink,
    number: u32,
    up: &Forwarder,
    down: &Forwarder,
) -> Result<(), Stopped> {
    let mut records = up.records().chain(down.records());
    match (records.next(), records.next()) {
        (None, _) => Ok(()),
        (Some(one), None) => sink.take(number, &[one]).await,
        (Some(first), Some(second)) => {
            let all: Vec<_> = [first, second].into_iter().chain(records).collect();
            sink.take(number, &all).await
        }
    }
}

/// What cuts the messages of a side, where they can be read.
fn decoder(side: Side, begin: LinkStart) -> Option<Decoder> {
    match begin {
        LinkStart::First => Some(decoder_of(side)),
        LinkStart::Open if side == Side::Client => Some(Decoder::of_open_client()),
        LinkStart::Open => Some(Decoder::of_server()),
        LinkStart::Encrypted => None,
    }
}

/// Whether mechanisms with channel binding can't be offered: they bind to the server's certificate, and the client would
/// see another one or none.
fn drops_binding(link: &Link) -> bool {
    let (theirs, ours) = (link.server.peer_certificate(), link.client.own_certificate());
    theirs.is_some() && theirs != ours
}

/// Reads until the end what nobody gets.
async fn discard(from: &mut (impl AsyncRead + Unpin)) {
    let mut room = [0; 1024];
    while matches!(from.read(&mut room).await, Ok(count) if count > 0) {}
}
