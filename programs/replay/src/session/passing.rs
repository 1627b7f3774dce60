//! Going on with a server where a client says what isn't recorded.

use super::ReplaySession;
use crate::renewal::Renewal;
use crate::serve::Shared;
use net::Stream;
use pg_record::{pass, Link, LinkError, LinkStart};
use recording::Side;

impl ReplaySession<'_> {
    /// Records what the client said, where the session is recorded. Where that can't be done any more all ends.
    pub(super) async fn note(&mut self, bytes: &[u8]) {
        if let Some(recorder) = &mut self.out.recorder {
            let _ = recorder.say(bytes).await;
        }
    }

    /// Passes the session on to the server from the exchange at hand on. Gives the client back where that can't be done, which
    /// is a difference then.
    pub(super) async fn pass_on(&mut self, client: Stream) -> Option<Stream> {
        let (shared, number) = (self.shared, self.out.recorder.as_ref()?.number);
        let (Some(renewal), Some(report)) = (&shared.renewal, self.missing.take()) else {
            return Some(client);
        };
        let caught = match &mut self.out.recorder {
            Some(recorder) => recorder.catch_up().await,
            None => return Some(client),
        };
        match caught {
            Ok((server, from_server, from_client)) => {
                shared.pool().give_back(self.slot);
                renewal.keep(number);
                let link =
                    Link { client, server, from_client, from_server, begin: LinkStart::Open };
                // What is left to say may begin within a message, and holds no password after the login. Why nothing can
                // pass any more is told already.
                let _ = pass(&renewal.sink, number, false, link).await;
                None
            }
            Err(why) => {
                shared.stderr.say(format!("what isn't recorded can't be passed on: {why:#}"));
                self.fail(&report);
                Some(client)
            }
        }
    }

    /// Ends the recording of a session that was replayed, which nobody needs.
    pub(super) async fn end_recording(&mut self) {
        if let Some(recorder) = self.out.recorder.take() {
            let _ = recorder.end(Side::Client).await;
        }
    }
}

/// Passes a whole session on to the server, whose client has said a Startup of so many bytes and some more, or a request to
/// cancel. Gives the client back where there is no server.
pub async fn pass_all(
    shared: &Shared,
    renewal: &Renewal,
    peer: &str,
    client: Stream,
    (from_client, startup): (Vec<u8>, usize),
) -> Result<(), Stream> {
    let server = match renewal.connect().await {
        Ok(server) => server,
        Err(why) => {
            shared.stderr.say(format!("what isn't recorded can't be passed on: {why:#}"));
            return Err(client);
        }
    };
    if let Ok(number) = renewal.sink.open(peer).await {
        let from_server = Vec::new();
        let link = Link { client, server, from_client, from_server, begin: LinkStart::First };
        match renewal.start(link, number, startup).await {
            Ok(link) => {
                renewal.keep(number);
                drop(pass(&renewal.sink, number, true, link).await);
            }
            Err(LinkError::Unreachable(why)) => shared.stderr.say(why),
            Err(LinkError::Refused(why, _)) => {
                shared.stderr.say(format!("a client at {peer} {why}"))
            }
            Err(LinkError::Gone | LinkError::Stopped) => {}
        }
    }
    Ok(())
}
