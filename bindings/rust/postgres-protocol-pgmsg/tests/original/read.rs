//! What each of the two crates reads of a stream, in words.

/// Says a message in words, by a table of the parts of each.
macro_rules! said {
    (@ $kind:ident) => { stringify!($kind).to_string() };
    (@ $kind:ident $($part:expr),+) => { format!("{} {:?}", stringify!($kind), ($($part,)+)) };
    ($message:ident: $($kind:ident$(($it:ident): $($part:expr),+)?;)*) => {
        match $message {
            $(Message::$kind$(($it))? => said!(@ $kind $($($part),+)?),)*
            _ => "another".to_string(),
        }
    };
}

/// Makes the readers of one of the two crates.
macro_rules! reader {
    ($name:ident, $library:ident) => {
        pub mod $name {
            use bytes::BytesMut;
            use fallible_iterator::FallibleIterator;
            use std::fmt::Debug;
            use $library::message::backend::{
                ColumnFormats, DataRowBody, ErrorFields, Fields, Header, Message, SaslMechanisms,
            };

            /// The messages of a stream that comes in pieces, up to the first that is refused, and
            /// after each what of the stream is left.
            pub fn read(pieces: &[&[u8]]) -> Vec<String> {
                let mut stream = BytesMut::new();
                let mut said = Vec::new();
                for piece in pieces {
                    stream.extend_from_slice(piece);
                    loop {
                        said.push(words(
                            Header::parse(&stream).map(|it| it.map(|it| (it.tag(), it.len()))),
                        ));
                        match Message::parse(&mut stream) {
                            Ok(Some(message)) => {
                                said.push(format!("{} {}", stream.len(), named(message)))
                            }
                            Ok(None) => break,
                            Err(_) => return [said, vec!["refused".into()]].concat(),
                        }
                    }
                    said.push(stream.len().to_string());
                }
                said
            }

            fn words<T: Debug, E>(read: Result<T, E>) -> String {
                read.map_or_else(|_| "refused".into(), |read| format!("{read:?}"))
            }

            fn named(message: Message) -> String {
                said! {
                    message:
                    AuthenticationOk;
                    AuthenticationKerberosV5;
                    AuthenticationCleartextPassword;
                    AuthenticationScmCredential;
                    AuthenticationGss;
                    AuthenticationSspi;
                    AuthenticationMd5Password(it): it.salt();
                    AuthenticationGssContinue(it): it.data();
                    AuthenticationSasl(it): mechanisms(it.mechanisms());
                    AuthenticationSaslContinue(it): it.data();
                    AuthenticationSaslFinal(it): it.data();
                    BackendKeyData(it): it.process_id(), it.secret_key();
                    BindComplete;
                    CloseComplete;
                    CommandComplete(it): words(it.tag());
                    CopyData(it): it.data().to_vec(), it.into_bytes();
                    CopyDone;
                    CopyInResponse(it): it.format(), formats(it.column_formats());
                    CopyOutResponse(it): it.format(), formats(it.column_formats());
                    DataRow(it): row(&it);
                    EmptyQueryResponse;
                    ErrorResponse(it): fields(it.fields());
                    NoData;
                    NoticeResponse(it): fields(it.fields());
                    NotificationResponse(it): it.process_id(), words(it.channel()), words(it.message());
                    ParameterDescription(it): words(it.parameters().collect::<Vec<_>>());
                    ParameterStatus(it): words(it.name()), words(it.value());
                    ParseComplete;
                    PortalSuspended;
                    ReadyForQuery(it): it.status();
                    RowDescription(it): columns(it.fields());
                }
            }

            fn row(row: &DataRowBody) -> String {
                let ranges = row.ranges().collect::<Vec<_>>();
                let values = ranges.map(|ranges| {
                    let value = |range: Option<std::ops::Range<usize>>| {
                        range.map(|range| (range.clone(), &row.buffer()[range]))
                    };
                    ranges.into_iter().map(value).collect::<Vec<_>>()
                });
                format!("Row {} {:?}", words(values), row.buffer())
            }

            fn formats(formats: ColumnFormats<'_>) -> String {
                words(formats.collect::<Vec<_>>())
            }

            fn mechanisms(mechanisms: SaslMechanisms<'_>) -> String {
                words(mechanisms.map(|it| Ok(it.to_string())).collect::<Vec<_>>())
            }

            fn fields(fields: ErrorFields<'_>) -> String {
                words(fields.map(|it| Ok((it.type_(), it.value().to_string()))).collect::<Vec<_>>())
            }

            fn columns(columns: Fields<'_>) -> String {
                let column = columns.map(|it| {
                    let table = (it.table_oid(), it.column_id());
                    Ok((
                        it.name().to_string(),
                        table,
                        it.type_oid(),
                        it.type_size(),
                        it.type_modifier(),
                        it.format(),
                    ))
                });
                words(column.collect::<Vec<_>>())
            }
        }
    };
}

reader!(ours, postgres_protocol_pgmsg);
reader!(theirs, original);
