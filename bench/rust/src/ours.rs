//! The calls of pgmsg.

use crate::Query;
use pgmsg::backend::RowIndex;
use pgmsg::connection::{ClientSide, Connection};
use pgmsg::flow::Heard;
use pgmsg::frontend::{Bind, Execute, Message, Parse, Target};
use pgmsg::replication::logical::{Datum, LogicalMessage};
use pgmsg::{Decoder, Format, Next, Value};

/// Reads rows off a stream that is copied into a buffer: the sum of the lengths of all cells.
pub fn read(stream: &[u8], buffer: &mut Vec<u8>, index: &mut RowIndex) -> usize {
    buffer.clear();
    buffer.extend_from_slice(stream);
    let (mut decoder, mut left, mut sum) = (Decoder::of_server(), &buffer[..], 0);
    while let Next::Frame(frame) = decoder.next(left).expect("a frame") {
        assert_eq!(frame.tag, Some(b'D'));
        let row = index.read(frame.body()).expect("a row");
        sum += row.iter().flatten().map(<[u8]>::len).sum::<usize>();
        left = &left[frame.bytes.len()..];
    }
    sum
}

/// A connection to which a server sends rows.
pub fn in_rows() -> Connection<ClientSide> {
    let mut connection = Connection::ready();
    connection.send(&Message::Query("TABLE t".into()), &mut Vec::new()).expect("a Query");
    connection.receive(&mut &b"T\0\0\0\x06\0\0"[..]).expect("it comes first");
    connection
}

/// Reads rows as [`read`] does, and whose each of them is.
pub fn read_of_request(
    stream: &[u8],
    connection: &mut Connection<ClientSide>,
    buffer: &mut Vec<u8>,
    index: &mut RowIndex,
) -> usize {
    buffer.clear();
    buffer.extend_from_slice(stream);
    let (mut left, mut sum) = (&buffer[..], 0);
    while let Some(answer) = connection.receive(&mut left).expect("a frame") {
        assert_eq!(answer.whose, Heard::Answer { request: 0, is_last: false });
        let row = index.read(answer.frame.body()).expect("a row");
        sum += row.iter().flatten().map(<[u8]>::len).sum::<usize>();
    }
    sum
}

/// The requests of an extended query, and what answers them.
const REQUESTS: [Message<'_>; 5] = [
    Message::Describe(Target::Statement(pgmsg::ByteStr(b"s17"))),
    Message::Describe(Target::Portal(pgmsg::ByteStr(b""))),
    Message::Close(Target::Statement(pgmsg::ByteStr(b"s17"))),
    Message::Close(Target::Portal(pgmsg::ByteStr(b""))),
    Message::Sync,
];
const ANSWERS: &[u8] = b"t\0\0\0\x06\0\0n\0\0\0\x04n\0\0\0\x043\0\0\0\x043\0\0\0\x04Z\0\0\0\x05I";

/// How many messages a pipeline has.
pub const PIPELINE: u32 = 11;

/// Writes requests and reads their answers: how many bytes both have.
pub fn pipeline(out: &mut Vec<u8>) -> usize {
    out.clear();
    REQUESTS.iter().for_each(|request| request.write(out).expect("a request"));
    let (mut decoder, mut left, mut sum) = (Decoder::of_server(), ANSWERS, out.len());
    while let Next::Frame(frame) = decoder.next(left).expect("a frame") {
        sum += frame.bytes.len();
        left = &left[frame.bytes.len()..];
    }
    sum
}

/// The same in a session that is followed.
pub fn followed(connection: &mut Connection<ClientSide>, out: &mut Vec<u8>) -> usize {
    out.clear();
    for request in &REQUESTS {
        connection.send(request, out).expect("a request");
    }
    let (mut left, mut sum) = (ANSWERS, out.len());
    while let Some(answer) = connection.receive(&mut left).expect("an answer") {
        sum += answer.frame.bytes.len();
    }
    sum
}

/// Writes a Parse into an emptied buffer: how many bytes it has.
pub fn parse(query: &Query, out: &mut Vec<u8>) -> usize {
    out.clear();
    let parse = Parse {
        statement: query.statement.into(),
        query: (&query.query).into(),
        types: (&query.types).into(),
    };
    parse.write(out).expect("a Parse");
    out.len()
}

/// Writes a Bind of the unnamed portal, an Execute of it and a Sync: how many bytes they have.
pub fn run(query: &Query, out: &mut Vec<u8>) -> usize {
    let mut values = [Value::NULL; 8];
    for (value, bytes) in values.iter_mut().zip(&query.values) {
        *value = Value::new(bytes);
    }
    out.clear();
    let bind = Bind {
        statement: query.statement.into(),
        formats: (&[Format::BINARY]).into(),
        values: (&values[..query.values.len()]).into(),
        result_formats: (&[Format::BINARY]).into(),
        ..Bind::default()
    };
    bind.write(out)
        .and_then(|()| Execute::default().write(out))
        .and_then(|()| Message::Sync.write(out))
        .expect("three messages");
    out.len()
}

/// Reads an Insert of a logical slot: the sum of the table's number and the lengths of its values.
pub fn insert(content: &[u8]) -> usize {
    let insert = match LogicalMessage::read(content, false).expect("a message") {
        LogicalMessage::Insert(insert) => insert,
        other => panic!("{other:?}"),
    };
    let lengths = insert.new.iter().map(|value| match value {
        Datum::Null | Datum::Unchanged => 0,
        Datum::Text(bytes) | Datum::Binary(bytes) => bytes.len(),
    });
    insert.relation as usize + lengths.sum::<usize>()
}
