//! How the data of a COPY is spelled.

use crate::body::checked;
use crate::buffer::{put_answer, Buffer};
use crate::error::{Fault, Refusal};
use crate::list::List;
use crate::value::Format;
use alloc::vec::Vec;
use pgmsg_core::pg_receive::message::CopyResponseRef;
use pgmsg_core::pg_server::backend::{CopyDirection, OutboundCopyResponse};

/// How the data of a COPY is spelled.
///
/// ```
/// use pgmsg::backend::{CopyResponse, Message};
/// use pgmsg::Format;
///
/// let response = CopyResponse::read(b"\0\0\x02\0\0\0\0")?;
/// assert_eq!((response.format, &response.columns[..]), (0, &[Format::TEXT; 2][..]));
/// # let mut out = Vec::new();
/// Message::CopyInResponse(response).write(&mut out)?;
/// # Ok::<(), Box<dyn std::error::Error>>(())
/// ```
#[derive(Clone, Debug, Default, PartialEq, Eq)]
pub struct CopyResponse<'a> {
    /// The format of the data as a whole: 0 for text, 1 for binary.
    pub format: i8,
    /// The format of each column. There is none, too, where a server announces fewer than 0. A message of more than
    /// 32767 is refused with [`TooMany`](crate::Refusal::TooMany).
    pub columns: List<'a, Format>,
}

impl CopyResponse<'_> {
    /// Reads the body of a CopyInResponse, a CopyOutResponse or a CopyBothResponse.
    pub fn read(body: &[u8]) -> Result<CopyResponse<'static>, Fault> {
        let CopyResponseRef { format, format_codes, .. } = CopyResponseRef::read(checked(body)?)?;
        let columns = List::of(format_codes.len(), format_codes.map(Format))?;
        Ok(CopyResponse { format, columns })
    }
}

/// Appends one of the three messages.
pub(super) fn write<B: Buffer>(
    direction: CopyDirection,
    response: &CopyResponse<'_>,
    out: &mut B,
) -> Result<(), Refusal> {
    let format_codes: Vec<_> = response.columns.iter().map(|format| format.0).collect();
    let (format, format_codes) = (response.format, &format_codes[..]);
    put_answer(&OutboundCopyResponse { direction, format, format_codes }, out)
}
