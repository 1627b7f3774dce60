//! Bodies of messages.

use pgmsg_core::pg_base::io::MAX_BODY;
use pgmsg_core::pg_base::ProtocolFault;

/// A body that is no longer than a length field can say, as the readers of the core take them.
#[inline]
pub(crate) fn checked(body: &[u8]) -> Result<&[u8], ProtocolFault> {
    match body.len() > MAX_BODY {
        true => Err(ProtocolFault::BodyTooLong(body.len())),
        false => Ok(body),
    }
}
