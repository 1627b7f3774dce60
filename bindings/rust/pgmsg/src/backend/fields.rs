//! The fields of an error or a notice.

use super::Severity;
use crate::buffer::{put_answer, Buffer};
use crate::byte_str::ByteStr;
use crate::error::{Fault, Refusal};
use crate::list::List;
use alloc::vec::Vec;
use pgmsg_core::pg_receive::message as received;
use pgmsg_core::pg_server::backend::{
    AsOutboundItem, NoticeKind, OutboundNotice, OutboundNoticeField,
};

/// Makes the enum of what fields say by a table of their letters.
macro_rules! kinds {
    ($($(#[$doc:meta])* $name:ident = $letter:literal;)*) => {
        /// What a field of an error or a notice says.
        #[derive(Clone, Copy, Debug, PartialEq, Eq, Hash)]
        #[cfg_attr(feature = "serde", derive(serde::Serialize, serde::Deserialize))]
        #[non_exhaustive]
        pub enum FieldKind {
            $($(#[$doc])* $name,)*
            /// A field with another letter, which a client should ignore.
            Other(u8),
        }

        impl FieldKind {
            /// What a field with this letter says.
            pub const fn from_letter(letter: u8) -> FieldKind {
                match letter {
                    $($letter => FieldKind::$name,)*
                    letter => FieldKind::Other(letter),
                }
            }

            /// The letter of such a field.
            ///
            /// ```
            /// # use pgmsg::backend::FieldKind;
            /// assert_eq!(FieldKind::Code.letter(), b'C');
            /// ```
            pub const fn letter(self) -> u8 {
                match self {
                    $(FieldKind::$name => $letter,)*
                    FieldKind::Other(letter) => letter,
                }
            }
        }
    };
}

kinds! {
    /// The severity, in the language of the server's messages.
    LocalizedSeverity = b'S';
    /// The severity as a word that does not depend on a language.
    Severity = b'V';
    /// The SQLSTATE code.
    Code = b'C';
    /// The message.
    Message = b'M';
    /// More about the problem.
    Detail = b'D';
    /// What may be done about it.
    Hint = b'H';
    /// The position in the query of the client, in characters from 1 on.
    Position = b'P';
    /// The position in a query that the server made.
    InternalPosition = b'p';
    /// The query that the server made.
    InternalQuery = b'q';
    /// The context, such as a stack of calls.
    Where = b'W';
    /// The name of the schema.
    Schema = b's';
    /// The name of the table.
    Table = b't';
    /// The name of the column.
    Column = b'c';
    /// The name of the data type.
    DataType = b'd';
    /// The name of the constraint.
    Constraint = b'n';
    /// The file of the server's source code.
    File = b'F';
    /// The line of that file.
    Line = b'L';
    /// The routine of the server's source code.
    Routine = b'R';
}

/// A field of an error or a notice.
#[derive(Clone, Copy, Debug, PartialEq, Eq)]
pub struct Field<'a> {
    /// The letter by which the server says what the field is.
    pub letter: u8,
    /// The text, which need not be UTF-8.
    pub value: ByteStr<'a>,
}

impl<'a> Field<'a> {
    /// A field of a kind, for an error or a notice that is written.
    ///
    /// ```
    /// # use pgmsg::backend::{Field, FieldKind};
    /// let field = Field::new(FieldKind::Code, "42P01");
    /// assert_eq!((field.letter, field.value), (b'C', "42P01".into()));
    /// ```
    pub fn new<T: AsRef<[u8]> + ?Sized>(kind: FieldKind, value: &'a T) -> Field<'a> {
        Field { letter: kind.letter(), value: value.into() }
    }

    /// What the field says.
    pub fn kind(&self) -> FieldKind {
        FieldKind::from_letter(self.letter)
    }
}

/// As it is written.
impl<'a> AsOutboundItem<OutboundNoticeField<'a>> for Field<'a> {
    fn as_item(&self) -> OutboundNoticeField<'a> {
        OutboundNoticeField { letter: self.letter, text: self.value.0 }
    }
}

/// The fields of an error or a notice, in the order of the message.
///
/// ```
/// use pgmsg::backend::{FieldKind, Fields, Severity};
///
/// let fields = Fields::read(b"SFEHLER\0VERROR\0C42601\0Msyntax error\0\0")?;
/// assert_eq!(fields.value(FieldKind::Code), Some("42601".into()));
/// assert_eq!(fields.severity()?, Severity::Error);
/// # Ok::<(), pgmsg::Fault>(())
/// ```
pub type Fields<'a> = List<'a, Field<'a>>;

impl<'a> Fields<'a> {
    /// Reads the fields of an ErrorResponse or a NoticeResponse by its body.
    ///
    /// The list ends at the first byte 0 in the place of a letter, at a text without a NUL, or where the
    /// body ends. No body is refused for what it holds.
    pub fn read(body: &'a [u8]) -> Result<Fields<'a>, Fault> {
        let fields = received::Fields::new(body);
        Ok(fields.map(|(letter, value)| Field { letter, value: ByteStr(value) }).collect())
    }

    /// The value of the first field of a kind.
    pub fn value(&self, kind: FieldKind) -> Option<ByteStr<'a>> {
        let letter = kind.letter();
        let field = self.iter().find(|field| field.letter == letter)?;
        Some(field.value)
    }

    /// The severity, by the field that doesn't depend on a language, else by the other one, whose unknown words are
    /// `Log`. Other fields need not be UTF-8.
    ///
    /// ```
    /// # use pgmsg::backend::{Fields, Severity};
    /// let fields = Fields::read(b"SPR\xC9CIS\0VERROR\0M\xE9\0\0")?;
    /// assert_eq!(fields.severity()?, Severity::Error);
    /// # Ok::<(), pgmsg::Fault>(())
    /// ```
    pub fn severity(&self) -> Result<Severity, Fault> {
        let of = |kind: FieldKind| self.iter().filter(move |field| field.letter == kind.letter());
        let kind = match of(FieldKind::Severity).next() {
            Some(_) => FieldKind::Severity,
            None => FieldKind::LocalizedSeverity,
        };
        let fields = of(kind).map(|field| [&[field.letter], &field.value[..], b"\0"].concat());
        let body: Vec<u8> = fields.flatten().collect();
        Severity::read(&body)
    }
}

/// Appends one of the two messages.
pub(super) fn write<B: Buffer>(
    kind: NoticeKind,
    fields: &[Field<'_>],
    out: &mut B,
) -> Result<(), Refusal> {
    put_answer(&OutboundNotice { kind, fields }, out)
}
