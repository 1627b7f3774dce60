//! What prepares, describes, runs and closes statements and portals.

use crate::body::checked;
use crate::buffer::{put_message, Buffer};
use crate::byte_str::ByteStr;
use crate::error::{Fault, Refusal};
use crate::list::List;
use crate::Oid;
use core::num::NonZeroU32;
use pgmsg_core::pg_send::message::{RawExecute, RawParse, RawTargetOf};
use pgmsg_core::pg_server::frontend::{self as core_frontend, ExecuteRef, ParseRef, TargetRef};

/// A statement that is prepared.
///
/// ```
/// use pgmsg::frontend::Parse;
///
/// let parse = Parse {
///     statement: "s0".into(),
///     query: "SELECT $1".into(),
///     types: [23].into(),
/// };
/// let mut out = Vec::new();
/// parse.write(&mut out)?;
/// assert_eq!(Parse::read(&out[5..])?, parse);
/// # Ok::<(), Box<dyn std::error::Error>>(())
/// ```
#[derive(Clone, Debug, Default, PartialEq, Eq)]
pub struct Parse<'a> {
    /// The name of the statement, empty for the unnamed one.
    pub statement: ByteStr<'a>,
    /// The text of the query.
    pub query: ByteStr<'a>,
    /// The object ids of the types of the parameters, from the first one on. The server infers those that
    /// are 0 or missing.
    pub types: List<'a, Oid>,
}

impl<'a> Parse<'a> {
    /// Reads the body of a Parse.
    pub fn read(body: &'a [u8]) -> Result<Parse<'a>, Fault> {
        let parse = ParseRef::read(checked(body)?)?;
        Ok(Parse {
            statement: ByteStr(parse.statement),
            query: ByteStr(parse.query),
            types: List::of(parse.types.len(), parse.types.map(|oid| oid.0))?,
        })
    }

    /// Appends the message.
    ///
    /// Refused with [`TextHoldsNul`](Refusal::TextHoldsNul) where a text holds a NUL, and with
    /// [`TooManyParamTypes`](Refusal::TooManyParamTypes) above 65535 types.
    #[inline]
    pub fn write<B: Buffer>(&self, out: &mut B) -> Result<(), Refusal> {
        let (statement, query) = (self.statement.0, self.query.0);
        put_message(&RawParse { statement, query, param_types: &self.types[..] }, out)
    }
}

/// What is described or closed, by its name, which is empty for the unnamed one.
///
/// ```
/// use pgmsg::frontend::{Message, Target};
///
/// assert_eq!(Target::read(b"Ss0\0")?, Target::Statement("s0".into()));
/// let mut out = Vec::new();
/// Message::Describe(Target::Portal("".into())).write(&mut out)?;
/// assert_eq!(out, b"D\0\0\0\x06P\0");
/// # Ok::<(), Box<dyn std::error::Error>>(())
/// ```
#[derive(Clone, Copy, Debug, PartialEq, Eq, Hash)]
pub enum Target<'a> {
    /// A prepared statement.
    Statement(ByteStr<'a>),
    /// A portal.
    Portal(ByteStr<'a>),
}

impl<'a> Target<'a> {
    /// Reads the body of a Describe or a Close.
    pub fn read(body: &'a [u8]) -> Result<Target<'a>, Fault> {
        let TargetRef { target, name } = TargetRef::read(checked(body)?)?;
        Ok(match target {
            core_frontend::Target::Statement => Target::Statement(ByteStr(name)),
            core_frontend::Target::Portal => Target::Portal(ByteStr(name)),
        })
    }

    /// The name of either.
    #[inline]
    pub fn name(self) -> ByteStr<'a> {
        match self {
            Target::Statement(name) | Target::Portal(name) => name,
        }
    }
}

/// As it is written.
impl<'a, const CLOSES: bool> From<Target<'a>> for RawTargetOf<'a, CLOSES> {
    fn from(target: Target<'a>) -> Self {
        match target {
            Target::Statement(name) => RawTargetOf::Statement(name.0),
            Target::Portal(name) => RawTargetOf::Portal(name.0),
        }
    }
}

/// A portal that is run.
///
/// ```
/// use pgmsg::frontend::Execute;
///
/// let execute = Execute::read(b"p0\0\0\0\0\x64")?;
/// assert_eq!((execute.portal, execute.max_rows), ("p0".into(), 100));
/// assert_eq!(Execute::default().limit(), None);
/// # Ok::<(), pgmsg::Fault>(())
/// ```
#[derive(Clone, Copy, Debug, Default, PartialEq, Eq)]
pub struct Execute<'a> {
    /// The name of the portal, empty for the unnamed one.
    pub portal: ByteStr<'a>,
    /// The most rows to send back, 0 for all of them.
    pub max_rows: u32,
}

impl<'a> Execute<'a> {
    /// The most rows to send back, or `None` for all of them: by 0, or by a number that a server, which
    /// reads a signed one, takes as below 0.
    #[inline]
    pub fn limit(&self) -> Option<NonZeroU32> {
        NonZeroU32::new(self.max_rows).filter(|limit| limit.get() <= i32::MAX as u32)
    }

    /// Reads the body of an Execute.
    pub fn read(body: &'a [u8]) -> Result<Execute<'a>, Fault> {
        let ExecuteRef { portal, limit } = ExecuteRef::read(checked(body)?)?;
        Ok(Execute { portal: ByteStr(portal), max_rows: limit })
    }

    /// Appends the message.
    ///
    /// Refused with [`TextHoldsNul`](Refusal::TextHoldsNul) where the name holds a NUL.
    #[inline]
    pub fn write<B: Buffer>(&self, out: &mut B) -> Result<(), Refusal> {
        put_message(&RawExecute { portal: &self.portal, limit: self.max_rows }, out)
    }
}
