//! Requests for encryption that the server answers.

use crate::pass::{Link, LinkStart};
use crate::session::{LinkError, ProxySession};
use net::{read_start, ConnectionStart, FirstMessage, OpenError, Stream};
use tokio::io::{AsyncReadExt, AsyncWriteExt};

/// What the server makes of a request.
enum EncryptionAnswer {
    /// Both sides begin with encryption.
    Yes,
    /// The client goes on without.
    No,
    /// Bytes of a message, or none where the server hangs up.
    Other(Vec<u8>),
}

/// Passes requests for encryption on, until one is granted, or another first message comes.
pub async fn link(session: &mut ProxySession<'_>, mut client: Stream) -> Result<Link, LinkError> {
    let (mut from_client, mut connected) = (Vec::new(), None);
    loop {
        let read_start =
            read_start(&mut client, &mut from_client).await.map_err(OpenError::from)?;
        if let ConnectionStart::End = read_start {
            return Err(LinkError::Gone);
        }
        let mut server = match connected.take() {
            Some(server) => server,
            None => session.connect(&mut client, waits_for_answer(&read_start)).await?,
        };
        let (begin, from_server) = match read_start {
            ConnectionStart::SslRequest(length) | ConnectionStart::GssEncRequest(length) => {
                let request: Vec<u8> = from_client.drain(..length).collect();
                match ask(&mut client, &mut server, &request).await? {
                    EncryptionAnswer::Yes => (LinkStart::Encrypted, Vec::new()),
                    EncryptionAnswer::Other(bytes) => (LinkStart::First, bytes),
                    EncryptionAnswer::No => {
                        connected = Some(server);
                        continue;
                    }
                }
            }
            ConnectionStart::Message(first, _) => {
                session.count(&first);
                (LinkStart::First, Vec::new())
            }
            _ => (LinkStart::Encrypted, Vec::new()),
        };
        return Ok(Link { client, server, from_client, from_server, begin });
    }
}

/// Whether a client that begins so waits for the server to say something.
fn waits_for_answer(read_start: &ConnectionStart) -> bool {
    match read_start {
        ConnectionStart::SslRequest(_) | ConnectionStart::GssEncRequest(_) => true,
        ConnectionStart::Message(first, _) => matches!(first, FirstMessage::Startup),
        ConnectionStart::Tls | ConnectionStart::End => false,
    }
}

/// Passes a request on, and the byte that answers it.
async fn ask(
    client: &mut Stream,
    server: &mut Stream,
    request: &[u8],
) -> Result<EncryptionAnswer, OpenError> {
    server.write_all(request).await?;
    let mut answer = [0];
    let count = server.read(&mut answer).await?;
    let is_yes = match &answer[..count] {
        b"S" | b"G" => true,
        b"N" => false,
        other => return Ok(EncryptionAnswer::Other(other.to_vec())),
    };
    client.write_all(&answer).await?;
    Ok(if is_yes { EncryptionAnswer::Yes } else { EncryptionAnswer::No })
}
