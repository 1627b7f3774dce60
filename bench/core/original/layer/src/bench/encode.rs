//! The messages of a script, as the original has them.

use harness::script::{self, Formats, Message, MOST_FORMATS};
use sqlx_core::io::ProtocolEncode;

use crate::io::{PortalId, StatementId};
use crate::message::{Bind, CopyData, Describe, EncodeMessage, Execute, Parse, Query, Sync};
use crate::types::Oid;
use crate::PgValueFormat;

static TEXTS: [PgValueFormat; MOST_FORMATS] = [PgValueFormat::Text; MOST_FORMATS];

static BINARIES: [PgValueFormat; MOST_FORMATS] = [PgValueFormat::Binary; MOST_FORMATS];

static TYPES: [Oid; 8] = {
    let [a, b, c, d, e, f, g, h] = script::TYPES;
    [
        Oid(a),
        Oid(b),
        Oid(c),
        Oid(d),
        Oid(e),
        Oid(f),
        Oid(g),
        Oid(h),
    ]
};

pub enum Prepared<'a> {
    Bind(EncodeMessage<Bind<'a>>),
    Execute(EncodeMessage<Execute>),
    Sync(EncodeMessage<Sync>),
    Parse(EncodeMessage<Parse<'a>>),
    Describe(EncodeMessage<Describe>),
    Query(EncodeMessage<Query<'a>>),
    CopyData(EncodeMessage<CopyData<&'a [u8]>>),
}

#[inline(always)]
pub fn prepare(message: Message<'_>) -> Prepared<'_> {
    match message {
        Message::Bind {
            portal,
            statement,
            formats,
            num_params,
            params,
            result_formats,
        } => Prepared::Bind(EncodeMessage(Bind {
            portal: portal_id(portal),
            statement: statement_id(statement),
            formats: repeated(formats),
            num_params,
            params,
            result_formats: repeated(result_formats),
        })),
        Message::Execute { portal, limit } => Prepared::Execute(EncodeMessage(Execute {
            portal: portal_id(portal),
            limit,
        })),
        Message::Sync => Prepared::Sync(EncodeMessage(Sync)),
        Message::Parse {
            statement,
            query,
            types,
        } => Prepared::Parse(EncodeMessage(Parse {
            statement: statement_id(statement),
            query,
            param_types: &TYPES[..types],
        })),
        Message::DescribePortal(id) => {
            Prepared::Describe(EncodeMessage(Describe::Portal(portal_id(id))))
        }
        Message::DescribeStatement(id) => {
            Prepared::Describe(EncodeMessage(Describe::Statement(statement_id(id))))
        }
        Message::Query(query) => Prepared::Query(EncodeMessage(Query(query))),
        Message::CopyData(bytes) => Prepared::CopyData(EncodeMessage(CopyData(bytes))),
    }
}

#[inline(always)]
pub fn encode(message: &Prepared<'_>, buf: &mut Vec<u8>) -> Option<()> {
    match message {
        Prepared::Bind(message) => message.encode(buf),
        Prepared::Execute(message) => message.encode(buf),
        Prepared::Sync(message) => message.encode(buf),
        Prepared::Parse(message) => message.encode(buf),
        Prepared::Describe(message) => message.encode(buf),
        Prepared::Query(message) => message.encode(buf),
        Prepared::CopyData(message) => message.encode(buf),
    }
    .ok()
}

#[inline(always)]
fn repeated(formats: Formats) -> &'static [PgValueFormat] {
    match formats.binary {
        true => &BINARIES[..formats.count],
        false => &TEXTS[..formats.count],
    }
}

// Only `next` makes an id with a number, and so many calls would be timed with the message.
#[inline(always)]
fn statement_id(number: u32) -> StatementId {
    // SAFETY: an id is an Option<NonZeroU32> in two wrappers, and 0 its None. The bytes that are
    // encoded are compared with those of the other layers.
    unsafe { std::mem::transmute::<u32, StatementId>(number) }
}

#[inline(always)]
fn portal_id(number: u32) -> PortalId {
    // SAFETY: as in `statement_id`
    unsafe { std::mem::transmute::<u32, PortalId>(number) }
}
