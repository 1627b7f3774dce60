//! A client that connects, up to its session.

use super::passing::pass_all;
use super::{linger, say, ReplaySession, SessionRecorder};
use crate::fingerprint::{Fingerprinter, UNRECORDED};
use crate::pool::Claim;
use crate::report::{fatal, DifferenceReport, ReportedMessage};
use crate::serve::Shared;
use anyhow::Result;
use net::{open, FirstMessage, Stream};
use pg_record::Stopped;
use pgmsg::backend::{Authentication, Message};
use pgmsg::frontend;
use std::time::{Duration, Instant};
use tokio::io::AsyncWriteExt;
use tokio::sync::oneshot;
use tokio::time::{sleep, timeout};

/// How long a client may take to open its session, as PostgreSQL's servers have it.
const OPENING_PATIENCE: Duration = Duration::from_secs(60);
/// How long a client waits for a connection that another one has, and when it looks again.
const TAKING_PATIENCE: Duration = Duration::from_millis(2500);
const TAKING_PAUSE: Duration = Duration::from_millis(5);

/// A client that has said its Startup, and its password where it was asked for one.
struct AuthenticatedClient {
    /// Its address.
    peer: String,
    stream: Stream,
    /// From its length on.
    startup: Vec<u8>,
    /// What it said after that.
    rest: Vec<u8>,
}

/// Serves a client that has connected. It has to go where others wait and it doesn't open a session.
pub async fn greet(
    shared: &Shared,
    stream: Stream,
    peer: String,
    has_to_go: oneshot::Receiver<()>,
) {
    let client = tokio::select! {
        client = timeout(OPENING_PATIENCE, receive(shared, stream, peer)) => client,
        _ = has_to_go => return,
    };
    match client {
        Err(_) => shared.stderr.say("a client took too long to open its session"),
        Ok(Err(why)) => shared.stderr.say(format!("a connection is refused: {why:#}")),
        Ok(Ok(None)) => {}
        Ok(Ok(Some(client))) => give_slot(shared, client).await,
    }
}

/// Takes the first message. `None` where it is none of a session, or the client hangs up.
async fn receive(
    shared: &Shared,
    stream: Stream,
    peer: String,
) -> Result<Option<AuthenticatedClient>> {
    let Some(mut opened) = open(stream, shared.tls.as_ref()).await? else {
        return Ok(None);
    };
    if let FirstMessage::Broken(fault) = opened.first {
        return Err(fault.into());
    }
    let mut rest = opened.bytes.split_off(opened.length);
    if let frontend::Message::CancelRequest(cancel) =
        frontend::Message::read_body(None, &opened.bytes[4..])?
    {
        if shared.pool().cancel(cancel.process_id) {
            shared.stirred.notify_waiters();
        } else if let Some(renewal) = &shared.renewal {
            let _ = pass_all(shared, renewal, &peer, opened.stream, (opened.bytes, 0)).await;
        }
        return Ok(None);
    }
    if let Some(login) = &shared.login {
        rest = match login.ask(&mut opened.stream, rest).await {
            Ok(rest) => rest,
            Err(why) => {
                refuse(&mut opened.stream).await;
                return Err(why);
            }
        };
    }
    Ok(Some(AuthenticatedClient { peer, stream: opened.stream, startup: opened.bytes, rest }))
}

/// Ends a login as a server does.
async fn refuse(stream: &mut Stream) {
    let fields = fatal("28P01", "password authentication failed");
    let _ = say(stream, &Message::ErrorResponse(fields.into())).await;
    linger(stream).await;
}

/// Gives a client a recorded connection, and serves it.
async fn give_slot(shared: &Shared, client: AuthenticatedClient) {
    let fingerprinter = &mut Fingerprinter::new(shared.rules.clone());
    let fingerprint =
        shared.recording.fingerprints.find(fingerprinter.message(None, &client.startup[4..]));
    match claim(shared, fingerprint).await {
        Claim::Slot(slot) => {
            if let Some(ended) = serve(shared, client, slot).await.transpose() {
                shared.leave(slot, ended);
            }
        }
        Claim::Differs(connection) => match pass_on(shared, client).await {
            Ok(()) => {}
            Err(client) => differ(shared, client, connection).await,
        },
    }
}

/// Serves a client that has the slot of a recorded connection. `None` where it left that to others, and went on with a server.
async fn serve(
    shared: &Shared,
    mut client: AuthenticatedClient,
    slot: usize,
) -> Result<Option<bool>> {
    let recorded = &shared.recording.connections[slot];
    if recorded.is_left_at_password {
        return Ok(Some(ask_in_vain(&mut client).await.is_ok()));
    }
    let AuthenticatedClient { peer, stream, startup, rest } = client;
    let recorder = match &shared.renewal {
        None => None,
        Some(renewal) => match SessionRecorder::begin(renewal, &peer, &startup).await {
            Ok(recorder) => Some(recorder),
            // Why nothing is recorded any more is told already.
            Err(Stopped) => return Ok(Some(false)),
        },
    };
    ReplaySession::new(shared, slot, recorder).serve(stream, recorded.startup, rest).await
}

/// Passes a client on to the server where none of its session is recorded; gives it back where there is no server.
async fn pass_on(shared: &Shared, client: AuthenticatedClient) -> Result<(), AuthenticatedClient> {
    let Some(renewal) = &shared.renewal else {
        return Err(client);
    };
    let AuthenticatedClient { peer, stream, startup, rest } = client;
    let said = ([&startup[..], &rest].concat(), startup.len());
    match pass_all(shared, renewal, &peer, stream, said).await {
        Ok(()) => Ok(()),
        Err(stream) => Err(AuthenticatedClient { peer, stream, startup, rest }),
    }
}

/// Ends a client whose Startup isn't that of the connection which it would get.
async fn differ(shared: &Shared, mut client: AuthenticatedClient, connection: Option<usize>) {
    let recorded = match connection {
        Some(connection) => ReportedMessage::startup(&shared.recording, connection),
        None => ReportedMessage::Words("no connection that isn't replayed".to_owned()),
    };
    let number = connection.map(|it| shared.recording.connections[it].number);
    let received = ReportedMessage::Startup(client.startup);
    let report =
        DifferenceReport::new((number, 1), &shared.allowed(None), &recorded, &received, None);
    shared.tell_difference(&report);
    let _ = client.stream.write_all(&report.error()).await;
    let _ = client.stream.flush().await;
    linger(&mut client.stream).await;
    shared.fail(connection);
}

/// Waits a while for a connection that another client has, which may be about to leave.
async fn claim(shared: &Shared, fingerprint: u32) -> Claim {
    let begun = Instant::now();
    loop {
        let claim = shared.pool().claim(fingerprint);
        let may_fit = match claim {
            Claim::Slot(_) => false,
            // What a server answers has to wait for no recorded connection.
            Claim::Differs(_) if shared.renewal.is_some() && fingerprint == UNRECORDED => false,
            Claim::Differs(first) => first.is_none() || shared.any_order,
        };
        if !(may_fit
            && shared.again
            && shared.pool().is_held()
            && begun.elapsed() < TAKING_PATIENCE)
        {
            return claim;
        }
        sleep(TAKING_PAUSE).await;
    }
}

/// Asks for a password where the recorded client left at that request: this one leaves too, or is left.
async fn ask_in_vain(client: &mut AuthenticatedClient) -> Result<bool> {
    say(&mut client.stream, &Message::Authentication(Authentication::CleartextPassword)).await?;
    let mut answer = [0];
    let _ =
        timeout(OPENING_PATIENCE, tokio::io::AsyncReadExt::read(&mut client.stream, &mut answer))
            .await;
    linger(&mut client.stream).await;
    Ok(true)
}
