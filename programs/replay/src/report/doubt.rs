//! What is said where a client may mean either of two recorded messages, which were answered otherwise.

use super::ReportedMessage;
use crate::recorded::{Recording, HEAD};
use lines::escape;
use pgmsg::frontend::Message;

/// Longer texts are cut.
const SHOWN: usize = 200;

/// What a client can do that isn't to be taken for another one.
pub const ADVICE: &str =
    "a client is told from others by its Startup, such as by an application_name of its own";

/// A sentence about the message that a client gets the answer of, and about another one that fits.
pub fn sentence(recording: &Recording, said: usize, rival: usize) -> String {
    let place = |it: usize| {
        format!(
            "message {} of connection {}",
            recording.requests.number(it),
            recording.connection_of(it)
        )
    };
    let (own, other) = (place(said), place(rival));
    let request: String = request(recording, said).chars().take(SHOWN).collect();
    format!("{own} isn't answered as {other}, and a client may mean either: {request}")
}

/// The text of SQL that a message runs, or the message itself, in one line.
fn request(recording: &Recording, said: usize) -> String {
    if recording.is_startup(said) {
        return "a Startup".to_owned();
    }
    let begin = recording.turns[recording.turn_of(said)].requests().start;
    match (begin..=said).rev().find_map(|it| text(recording, it)) {
        Some(text) => escape(&text),
        None => recording
            .message(said)
            .map_or_else(|why| why.to_string(), |it| ReportedMessage::read(it).line()),
    }
}

/// The text of SQL that a message has, or that of the statement that it binds.
fn text(recording: &Recording, said: usize) -> Option<Vec<u8>> {
    let message = recording.message(said).ok()?;
    match Message::read_body(Some(message[0]), message.get(HEAD..)?) {
        Ok(Message::Query(text)) => Some(text.to_vec()),
        Ok(Message::Parse(parse)) => Some(parse.query.to_vec()),
        Ok(Message::Bind(_)) => recording.statement_of(said),
        _ => None,
    }
}
