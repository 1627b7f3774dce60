//! Decodes with the original, and gives the consumer the tag of each message and everything that its
//! accessors return.

use bytes::{Buf, Bytes, BytesMut};
use harness::Consumer;

use crate::error::{PgDatabaseError, PgErrorPosition};
use crate::message::{
    BackendMessageFormat, CommandComplete, DataRow, ParameterStatus, ReadyForQuery,
    ReceivedMessage, RowDescription,
};

/// Reads the messages once; each pass decodes a clone of each.
pub fn prepared<C: Consumer>(stream: &[u8], times: usize, consumer: &mut C) -> Option<()> {
    let mut buf = BytesMut::from(stream);
    let mut frames = Vec::new();
    while let Some(frame) = next_frame(&mut buf) {
        // a block of its own for each
        frames.push((frame.0, Bytes::copy_from_slice(&frame.1)));
    }
    for _ in 0..times {
        for (tag, body) in &frames {
            give(*tag, body.clone(), consumer)?;
        }
    }
    buf.is_empty().then_some(())
}

/// Each pass appends piece after piece, and decodes the messages that are complete.
pub fn pieces<C: Consumer>(
    stream: &[u8],
    piece: usize,
    times: usize,
    consumer: &mut C,
) -> Option<()> {
    let mut buf = BytesMut::new();
    for _ in 0..times {
        for bytes in stream.chunks(piece) {
            buf.extend_from_slice(bytes);
            while let Some((tag, body)) = next_frame(&mut buf) {
                give(tag, body, consumer)?;
            }
        }
    }
    buf.is_empty().then_some(())
}

// The tag and the body of the first message, cut off without a copy, if it is complete.
#[inline(always)]
fn next_frame(buf: &mut BytesMut) -> Option<(u8, Bytes)> {
    let mut header = buf.get(..5)?;
    let tag = header.get_u8();
    let length = header.get_u32() as usize;
    if length < 4 || buf.len() < 1 + length {
        return None;
    }
    buf.advance(5);
    Some((tag, buf.split_to(length - 4).freeze()))
}

#[inline(always)]
fn give<C: Consumer>(tag: u8, contents: Bytes, consumer: &mut C) -> Option<()> {
    let format = BackendMessageFormat::try_from_u8(tag).ok()?;
    let message = ReceivedMessage { format, contents };
    consumer.number(u64::from(tag));
    match message.format {
        BackendMessageFormat::DataRow => give_row(&message.decode().ok()?, consumer),
        BackendMessageFormat::RowDescription => give_columns(&message.decode().ok()?, consumer),
        BackendMessageFormat::CommandComplete => {
            let complete: CommandComplete = message.decode().ok()?;
            consumer.number(complete.rows_affected());
        }
        BackendMessageFormat::ReadyForQuery => {
            let ready: ReadyForQuery = message.decode().ok()?;
            consumer.number(ready.transaction_status as u64);
        }
        BackendMessageFormat::ErrorResponse => give_error(&message.decode().ok()?, consumer),
        BackendMessageFormat::ParameterStatus => {
            let status: ParameterStatus = message.decode().ok()?;
            consumer.bytes(status.name.as_bytes());
            consumer.bytes(status.value.as_bytes());
        }
        _ => return None,
    }
    Some(())
}

#[inline(always)]
fn give_row<C: Consumer>(row: &DataRow, consumer: &mut C) {
    consumer.number(row.values.len() as u64);
    for index in 0..row.values.len() {
        consumer.bytes_or_nothing(row.get(index));
    }
}

fn give_columns<C: Consumer>(description: &RowDescription, consumer: &mut C) {
    for field in &description.fields {
        consumer.bytes(field.name.as_bytes());
        consumer.number(field.relation_id.map_or(0, |oid| u64::from(oid.0)));
        let attribute = field.relation_attribute_no.unwrap_or(0);
        consumer.number(u64::from(attribute as u16));
        consumer.number(u64::from(field.data_type_id.0));
        consumer.number(u64::from(field.data_type_size as u16));
        consumer.number(u64::from(field.type_modifier as u32));
        consumer.number(u64::from(field.format as u16));
    }
    consumer.number(description.fields.len() as u64);
}

fn give_error<C: Consumer>(error: &PgDatabaseError, consumer: &mut C) {
    consumer.number(error.severity() as u64);
    consumer.bytes(error.code().as_bytes());
    consumer.bytes(error.message().as_bytes());
    consumer.text(error.detail());
    consumer.text(error.hint());
    give_position(error.position(), consumer);
    consumer.text(error.r#where());
    consumer.text(error.schema());
    consumer.text(error.table());
    consumer.text(error.column());
    consumer.text(error.data_type());
    consumer.text(error.constraint());
    consumer.text(error.file());
    match error.line() {
        Some(line) => consumer.number(line as u64),
        None => consumer.nothing(),
    }
    consumer.text(error.routine());
}

fn give_position<C: Consumer>(position: Option<PgErrorPosition<'_>>, consumer: &mut C) {
    match position {
        None => consumer.nothing(),
        Some(PgErrorPosition::Original(position)) => {
            consumer.number(0);
            consumer.number(position as u64);
        }
        Some(PgErrorPosition::Internal { position, query }) => {
            consumer.number(1);
            consumer.number(position as u64);
            consumer.bytes(query.as_bytes());
        }
    }
}
