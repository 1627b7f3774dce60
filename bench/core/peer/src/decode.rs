//! Decodes with postgres-protocol, and gives the consumer what the other sides give theirs.

use bytes::BytesMut;
use fallible_iterator::FallibleIterator;
use harness::Consumer;
use postgres_protocol::message::backend::{
    DataRowBody, ErrorField, ErrorFields, Message, RowDescriptionBody,
};

// The letters of an error's fields that are read.
const LETTERS: &[u8; 18] = b"SVCMDHPpqWstcdnFLR";

// The place of each letter among these, and their count for all others.
const SLOTS: [usize; 128] = {
    let mut slots = [LETTERS.len(); 128];
    let mut slot = 0;
    while slot < LETTERS.len() {
        slots[LETTERS[slot] as usize] = slot;
        slot += 1;
    }
    slots
};

/// Each pass appends piece after piece, and decodes the messages that are complete.
pub fn pieces<C: Consumer>(
    stream: &[u8],
    piece: usize,
    times: usize,
    consumer: &mut C,
) -> Option<()> {
    let mut buf = BytesMut::new();
    for _ in 0..times {
        for bytes in stream.chunks(piece) {
            buf.extend_from_slice(bytes);
            while let Some(message) = Message::parse(&mut buf).ok()? {
                give(message, consumer)?;
            }
        }
    }
    buf.is_empty().then_some(())
}

#[inline(always)]
fn give<C: Consumer>(message: Message, consumer: &mut C) -> Option<()> {
    match message {
        Message::DataRow(row) => give_row(&row, consumer),
        Message::RowDescription(description) => give_columns(&description, consumer),
        Message::CommandComplete(complete) => {
            consumer.number(u64::from(b'C'));
            consumer.number(rows_affected(complete.tag().ok()?));
            Some(())
        }
        Message::ReadyForQuery(ready) => {
            consumer.number(u64::from(b'Z'));
            consumer.number(u64::from(ready.status()));
            Some(())
        }
        Message::ErrorResponse(error) => give_error(error.fields(), consumer),
        Message::ParameterStatus(status) => {
            consumer.number(u64::from(b'S'));
            consumer.bytes(status.name().ok()?.as_bytes());
            consumer.bytes(status.value().ok()?.as_bytes());
            Some(())
        }
        _ => None,
    }
}

#[inline(always)]
fn give_row<C: Consumer>(row: &DataRowBody, consumer: &mut C) -> Option<()> {
    let mut ranges = row.ranges();
    consumer.number(u64::from(b'D'));
    consumer.number(ranges.size_hint().0 as u64);
    while let Some(range) = ranges.next().ok()? {
        consumer.bytes_or_nothing(range.map(|range| &row.buffer()[range]));
    }
    Some(())
}

fn give_columns<C: Consumer>(description: &RowDescriptionBody, consumer: &mut C) -> Option<()> {
    let mut fields = description.fields();
    let mut count = 0;
    consumer.number(u64::from(b'T'));
    while let Some(field) = fields.next().ok()? {
        consumer.bytes(field.name().as_bytes());
        consumer.number(u64::from(field.table_oid()));
        consumer.number(u64::from(field.column_id() as u16));
        consumer.number(u64::from(field.type_oid()));
        consumer.number(u64::from(field.type_size() as u16));
        consumer.number(u64::from(field.type_modifier() as u32));
        consumer.number(u64::from(field.format() as u16));
        count += 1;
    }
    consumer.number(count);
    Some(())
}

// It has no accessor for a field, so one walk keeps the first field of each letter.
fn give_error<C: Consumer>(mut walk: ErrorFields<'_>, consumer: &mut C) -> Option<()> {
    let mut fields = [const { None }; LETTERS.len()];
    while let Some(field) = walk.next().ok()? {
        let slot = SLOTS[usize::from(field.type_() & 127)];
        if let Some(slot @ None) = fields.get_mut(slot) {
            *slot = Some(field);
        }
    }
    let text = |letter: u8| {
        fields[SLOTS[usize::from(letter)]]
            .as_ref()
            .map(ErrorField::value)
    };
    consumer.number(u64::from(b'E'));
    consumer.number(severity(text(b'V').or(text(b'S'))?));
    consumer.bytes(text(b'C')?.as_bytes());
    consumer.bytes(text(b'M')?.as_bytes());
    consumer.text(text(b'D'));
    consumer.text(text(b'H'));
    give_position(text, consumer)?;
    for letter in *b"WstcdnF" {
        consumer.text(text(letter));
    }
    match text(b'L') {
        Some(line) => consumer.number(line.parse().ok()?),
        None => consumer.nothing(),
    }
    consumer.text(text(b'R'));
    Some(())
}

fn give_position<'a, C: Consumer>(
    text: impl Fn(u8) -> Option<&'a str>,
    consumer: &mut C,
) -> Option<()> {
    match (text(b'P'), text(b'p')) {
        (Some(position), _) => {
            consumer.number(0);
            consumer.number(position.parse().ok()?);
        }
        (None, Some(position)) => {
            consumer.number(1);
            consumer.number(position.parse().ok()?);
            consumer.bytes(text(b'q')?.as_bytes());
        }
        (None, None) => consumer.nothing(),
    }
    Some(())
}

fn severity(word: &str) -> u64 {
    match word {
        "PANIC" => 0,
        "FATAL" => 1,
        "ERROR" => 2,
        "WARNING" => 3,
        "NOTICE" => 4,
        "DEBUG" => 5,
        "INFO" => 6,
        _ => 7,
    }
}

fn rows_affected(tag: &str) -> u64 {
    let count = tag
        .rsplit_once(' ')
        .and_then(|(_, count)| count.parse().ok());
    count.unwrap_or(0)
}
