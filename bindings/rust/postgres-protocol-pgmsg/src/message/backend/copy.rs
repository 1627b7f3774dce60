//! The data of a COPY, and how it is spelled.

use super::body::body;
use super::items::Items;
use crate::lacking::{ends, refused};
use bytes::Bytes;
use pgmsg::backend::CopyResponse;
use std::io;

/// The bytes before the formats of the columns: the format of all, and a count.
const COUNTED: usize = 3;

body! {
    /// Data of a COPY.
    CopyDataBody of 0, {
        /// The data.
        data(self) -> &[u8] = &self.0;
    }
}

impl CopyDataBody {
    /// The data, without copying it.
    #[inline]
    pub fn into_bytes(self) -> Bytes {
        self.0
    }
}

/// A body that says how the data of a COPY is spelled.
macro_rules! response {
    ($(#[$doc:meta])* $name:ident) => {
        body! {
            $(#[$doc])*
            $name of COUNTED, {
                /// The format of the data: 0 for text, 1 for binary.
                format(self) -> u8 = self.0.first().copied().unwrap_or_default();
                /// The formats of the columns.
                column_formats(self) -> ColumnFormats<'_> = Items::new(column_formats(&self.0));
            }
        }
    };
}

response! {
    /// The server waits for the data of a COPY.
    CopyInResponseBody
}

response! {
    /// The server is about to send the data of a COPY.
    CopyOutResponseBody
}

/// The formats of columns.
pub type ColumnFormats<'a> = Items<'a, u16>;

fn column_formats(body: &[u8]) -> io::Result<Vec<u16>> {
    let columns = CopyResponse::read(body)?.columns;
    // A count below 0 has no columns.
    if body[1] > 0x7f {
        return Err(refused("more columns than a table can have"));
    }
    ends(b'G', body)?;
    Ok(columns.iter().map(|format| format.0 as u16).collect())
}
