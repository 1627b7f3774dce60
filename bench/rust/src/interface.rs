//! The calls of postgres-protocol, and of the crate with its interface on pgmsg.

/// Makes the calls of one of the two crates.
macro_rules! calls {
    ($name:ident, $library:ident) => {
        pub mod $name {
            use crate::Query;
            use bytes::{BufMut, BytesMut};
            use fallible_iterator::FallibleIterator;
            use $library::message::backend::Message;
            use $library::message::frontend;
            use $library::IsNull;

            /// Reads rows off a stream that was copied into a buffer: the sum of the lengths of all cells.
            pub fn read(stream: &[u8]) -> usize {
                let mut buffer = BytesMut::from(stream);
                let mut sum = 0;
                while let Some(message) = Message::parse(&mut buffer).expect("a frame") {
                    let Message::DataRow(row) = message else {
                        panic!("not a row");
                    };
                    let mut ranges = row.ranges();
                    while let Some(range) = ranges.next().expect("a cell") {
                        sum += range.map_or(0, |range| row.buffer()[range].len());
                    }
                }
                sum
            }

            /// Writes a Parse into an emptied buffer: how many bytes it has.
            pub fn parse(query: &Query, buffer: &mut BytesMut) -> usize {
                buffer.clear();
                let types = query.types.iter().copied();
                frontend::parse(query.statement, &query.query, types, buffer).expect("a Parse");
                buffer.len()
            }

            /// Writes a Bind of the unnamed portal, an Execute of it and a Sync: how many bytes they have.
            pub fn run(query: &Query, buffer: &mut BytesMut) -> usize {
                buffer.clear();
                let put = |value: &Vec<u8>, buffer: &mut BytesMut| {
                    buffer.put_slice(value);
                    Ok(IsNull::No)
                };
                let bound =
                    frontend::bind("", query.statement, [1], &query.values, put, [1], buffer);
                assert!(bound.is_ok());
                frontend::execute("", 0, buffer).expect("an Execute");
                frontend::sync(buffer);
                buffer.len()
            }
        }
    };
}

calls!(drop_in, postgres_protocol_pgmsg);
calls!(original, postgres_protocol);
