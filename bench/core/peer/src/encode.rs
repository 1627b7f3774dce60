//! The messages of a script, as arguments of postgres-protocol's functions.

use bytes::BytesMut;
use harness::script::{Formats, Message, TYPES};
use postgres_protocol::message::frontend;
use postgres_protocol::IsNull;

use crate::name::Name;

pub enum Prepared<'a> {
    Bind {
        portal: String,
        statement: String,
        formats: Formats,
        params: Vec<Option<&'a [u8]>>,
        result_formats: Formats,
    },
    Execute {
        portal: String,
        limit: u32,
    },
    Sync,
    Parse {
        statement: String,
        query: &'a str,
        types: usize,
    },
    Describe {
        kind: u8,
        name: String,
    },
    Query(&'a str),
    CopyData(&'a [u8]),
}

pub fn prepare(message: Message<'_>) -> Prepared<'_> {
    match message {
        Message::Bind {
            portal,
            statement,
            formats,
            params,
            result_formats,
            ..
        } => Prepared::Bind {
            portal: Name::of_portal(portal).as_str().to_owned(),
            statement: Name::of_statement(statement).as_str().to_owned(),
            formats,
            params: Params(params).collect(),
            result_formats,
        },
        Message::Execute { portal, limit } => Prepared::Execute {
            portal: Name::of_portal(portal).as_str().to_owned(),
            limit,
        },
        Message::Sync => Prepared::Sync,
        Message::Parse {
            statement,
            query,
            types,
        } => {
            let statement = Name::of_statement(statement).as_str().to_owned();
            Prepared::Parse {
                statement,
                query,
                types,
            }
        }
        Message::DescribePortal(id) => Prepared::Describe {
            kind: b'P',
            name: Name::of_portal(id).as_str().to_owned(),
        },
        Message::DescribeStatement(id) => Prepared::Describe {
            kind: b'S',
            name: Name::of_statement(id).as_str().to_owned(),
        },
        Message::Query(query) => Prepared::Query(query),
        Message::CopyData(bytes) => Prepared::CopyData(bytes),
    }
}

#[inline(always)]
pub fn encode(message: &Prepared<'_>, buf: &mut BytesMut) -> Option<()> {
    match message {
        Prepared::Bind {
            portal,
            statement,
            formats,
            params,
            result_formats,
        } => bind(
            portal,
            statement,
            *formats,
            params.iter().copied(),
            *result_formats,
            buf,
        ),
        Prepared::Execute { portal, limit } => frontend::execute(portal, *limit as i32, buf).ok(),
        Prepared::Sync => Some(frontend::sync(buf)),
        Prepared::Parse {
            statement,
            query,
            types,
        } => parse(statement, query, *types, buf),
        Prepared::Describe { kind, name } => frontend::describe(*kind, name, buf).ok(),
        Prepared::Query(query) => frontend::query(query, buf).ok(),
        Prepared::CopyData(bytes) => copy_data(bytes, buf),
    }
}

#[inline(always)]
pub fn encode_parsed(message: Message<'_>, buf: &mut BytesMut) -> Option<()> {
    match message {
        Message::Bind {
            portal,
            statement,
            formats,
            params,
            result_formats,
            ..
        } => {
            let (portal, statement) = (Name::of_portal(portal), Name::of_statement(statement));
            let params = Params(params);
            bind(
                portal.as_str(),
                statement.as_str(),
                formats,
                params,
                result_formats,
                buf,
            )
        }
        Message::Execute { portal, limit } => {
            frontend::execute(Name::of_portal(portal).as_str(), limit as i32, buf).ok()
        }
        Message::Sync => Some(frontend::sync(buf)),
        Message::Parse {
            statement,
            query,
            types,
        } => parse(Name::of_statement(statement).as_str(), query, types, buf),
        Message::DescribePortal(id) => {
            frontend::describe(b'P', Name::of_portal(id).as_str(), buf).ok()
        }
        Message::DescribeStatement(id) => {
            frontend::describe(b'S', Name::of_statement(id).as_str(), buf).ok()
        }
        Message::Query(query) => frontend::query(query, buf).ok(),
        Message::CopyData(bytes) => copy_data(bytes, buf),
    }
}

#[inline(always)]
fn bind<'a>(
    portal: &str,
    statement: &str,
    formats: Formats,
    params: impl IntoIterator<Item = Option<&'a [u8]>>,
    result_formats: Formats,
    buf: &mut BytesMut,
) -> Option<()> {
    let put = |param: Option<&[u8]>, buf: &mut BytesMut| match param {
        None => Ok(IsNull::Yes),
        Some(bytes) => {
            buf.extend_from_slice(bytes);
            Ok(IsNull::No)
        }
    };
    let (formats, result_formats) = (codes(formats), codes(result_formats));
    frontend::bind(portal, statement, formats, params, put, result_formats, buf).ok()
}

#[inline(always)]
fn codes(formats: Formats) -> impl Iterator<Item = i16> {
    std::iter::repeat(i16::from(formats.binary)).take(formats.count)
}

#[inline(always)]
fn parse(statement: &str, query: &str, types: usize, buf: &mut BytesMut) -> Option<()> {
    frontend::parse(statement, query, TYPES[..types].iter().copied(), buf).ok()
}

#[inline(always)]
fn copy_data(bytes: &[u8], buf: &mut BytesMut) -> Option<()> {
    frontend::CopyData::new(bytes).ok()?.write(buf);
    Some(())
}

// The values of a Bind, each after its length.
struct Params<'a>(&'a [u8]);

impl<'a> Iterator for Params<'a> {
    type Item = Option<&'a [u8]>;

    #[inline(always)]
    fn next(&mut self) -> Option<Option<&'a [u8]>> {
        if self.0.is_empty() {
            return None;
        }
        let (length, rest) = self.0.split_at(4);
        let length = i32::from_be_bytes(length.try_into().unwrap());
        let (value, rest) = rest.split_at(length.max(0) as usize);
        self.0 = rest;
        Some((length >= 0).then_some(value))
    }
}
