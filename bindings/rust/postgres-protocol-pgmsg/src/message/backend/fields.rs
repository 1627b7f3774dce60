//! The fields of an error or a notice.

use super::body::{body, getters};
use super::items::Items;
use crate::lacking::{ends, text};
use pgmsg::backend::Fields;
use std::io;

body! {
    /// An error.
    ErrorResponseBody of 0, {
        /// The fields.
        fields(self) -> ErrorFields<'_> = Items::new(error_fields(&self.0));
    }
}

body! {
    /// A notice.
    NoticeResponseBody of 0, {
        /// The fields.
        fields(self) -> ErrorFields<'_> = Items::new(error_fields(&self.0));
    }
}

/// The fields of an error or a notice.
pub type ErrorFields<'a> = Items<'a, ErrorField<'a>>;

/// A field of an error or a notice.
pub struct ErrorField<'a> {
    letter: u8,
    value: &'a str,
}

impl<'a> ErrorField<'a> {
    getters! {
        /// The letter that says what the field is.
        type_(self) -> u8 = self.letter;
        /// The text of the field.
        value(self) -> &str = self.value;
    }
}

fn error_fields(body: &[u8]) -> io::Result<Vec<ErrorField<'_>>> {
    let fields = Fields::read(body)?;
    ends(b'E', body)?;
    let fields = fields.iter().map(|field| {
        let value = text(field.value)?;
        let letter = field.letter;
        Ok(ErrorField { letter, value })
    });
    fields.collect()
}
