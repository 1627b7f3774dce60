//! What comes of a body: its message's words, a refusal, or a panic.

use std::panic::{catch_unwind, AssertUnwindSafe};

use sqlx_core::bytes::Bytes;

use crate::error::PgDatabaseError;
use crate::message::*;

/// A message whose accessors are called.
pub trait Answer: BackendMessage {
    /// What every accessor returns, as ` KEY=VALUE` for each.
    fn words(&self) -> String;
}

/// The line for a body. With `more` it has the reasons too.
pub fn answer(tag: u8, contents: Bytes, more: bool) -> String {
    let format = match BackendMessageFormat::try_from_u8(tag) {
        Ok(format) => format,
        Err(reason) => return refused("UNKNOWN err", &reason.to_string(), more),
    };
    let name = format!("{format:?}");
    match outcome(ReceivedMessage { format, contents }) {
        None => format!("{name} untyped"),
        Some(Ok(words)) => format!("{name} ok{words}"),
        Some(Err((word, reason))) => refused(&format!("{name} {word}"), &reason, more),
    }
}

fn refused(words: &str, reason: &str, more: bool) -> String {
    match more && !reason.is_empty() {
        true => format!("{words} {}", reason.replace('\n', " ")),
        false => words.to_owned(),
    }
}

/// The words of a message, or a word for what went wrong, and its reason.
type Outcome = Result<String, (&'static str, String)>;

// None where the kind has no type.
fn outcome(message: ReceivedMessage) -> Option<Outcome> {
    Some(match message.format {
        BackendMessageFormat::Authentication => of::<Authentication>(message),
        BackendMessageFormat::BackendKeyData => of::<BackendKeyData>(message),
        BackendMessageFormat::CommandComplete => of::<CommandComplete>(message),
        BackendMessageFormat::CopyData => of::<CopyData<Bytes>>(message),
        BackendMessageFormat::CopyDone => of::<CopyDone>(message),
        BackendMessageFormat::CopyInResponse => of::<CopyInResponse>(message),
        BackendMessageFormat::CopyOutResponse => of::<CopyOutResponse>(message),
        BackendMessageFormat::DataRow => of::<DataRow>(message),
        BackendMessageFormat::ErrorResponse => of::<PgDatabaseError>(message),
        BackendMessageFormat::NoticeResponse => of::<Notice>(message),
        BackendMessageFormat::NotificationResponse => of::<Notification>(message),
        BackendMessageFormat::ParameterDescription => of::<ParameterDescription>(message),
        BackendMessageFormat::ParameterStatus => of::<ParameterStatus>(message),
        BackendMessageFormat::ReadyForQuery => of::<ReadyForQuery>(message),
        BackendMessageFormat::RowDescription => of::<RowDescription>(message),
        _ => return None,
    })
}

fn of<T: Answer>(message: ReceivedMessage) -> Outcome {
    let decoded = caught("decode", || message.decode::<T>())?;
    let message = decoded.map_err(|error| ("err", error.to_string()))?;
    caught("access", || message.words())
}

fn caught<T>(stage: &str, work: impl FnOnce() -> T) -> Result<T, (&'static str, String)> {
    catch_unwind(AssertUnwindSafe(work)).map_err(|panic| {
        let text = match (panic.downcast_ref::<&str>(), panic.downcast_ref::<String>()) {
            (Some(text), _) => text,
            (_, Some(text)) => text.as_str(),
            _ => "",
        };
        ("panic", format!("{stage}: {text}"))
    })
}
