//! The columns of a result, and the types of a statement's parameters.

use crate::body::checked;
use crate::buffer::{put_answer, Buffer};
use crate::byte_str::ByteStr;
use crate::error::{Fault, Refusal};
use crate::list::List;
use crate::value::Format;
use crate::Oid;
use alloc::vec::Vec;
use pgmsg_core::pg_base::io::{self, part::Number32};
use pgmsg_core::pg_format::items::Items;
use pgmsg_core::pg_receive::message::{ColumnReader, RawFieldRef};
use pgmsg_core::pg_server::backend::{AsOutboundItem, OutboundColumn, OutboundRowDescription};

/// The bytes of the number of a type.
const OID: usize = 4;

/// A column of a result.
#[derive(Clone, Copy, Debug, PartialEq, Eq)]
pub struct Column<'a> {
    /// The name of the column.
    pub name: ByteStr<'a>,
    /// The object id of the table that the column is of, 0 where it is of none.
    pub table: Oid,
    /// The number of the column in its table, 0 where it is of none.
    pub attribute: i16,
    /// The object id of the type.
    pub type_id: Oid,
    /// How many bytes a value of the type has. It is below 0 where that varies.
    pub type_size: i16,
    /// The modifier of the type, whose meaning depends on the type.
    pub type_modifier: i32,
    /// The format of the values.
    pub format: Format,
}

impl<'a> Column<'a> {
    /// A column of text, of no table and of a type whose values vary in size, for a result that is written.
    ///
    /// ```
    /// use pgmsg::backend::Column;
    ///
    /// let id = Column { type_size: 4, ..Column::new("id", 23) };
    /// assert_eq!((id.name, id.type_modifier, id.table), ("id".into(), -1, 0));
    /// ```
    pub fn new<T: AsRef<[u8]> + ?Sized>(name: &'a T, type_id: Oid) -> Column<'a> {
        Column {
            name: name.into(),
            table: 0,
            attribute: 0,
            type_id,
            type_size: -1,
            type_modifier: -1,
            format: Format::TEXT,
        }
    }
}

impl<'a> From<RawFieldRef<'a>> for Column<'a> {
    fn from(column: RawFieldRef<'a>) -> Column<'a> {
        Column {
            name: ByteStr(column.name),
            table: column.relation_id.map_or(0, |table| table.0),
            attribute: column.relation_attribute_no.unwrap_or(0),
            type_id: column.data_type_id.0,
            type_size: column.data_type_size,
            type_modifier: column.type_modifier,
            format: Format(column.format),
        }
    }
}

/// As it is written.
impl<'a> AsOutboundItem<OutboundColumn<'a>> for Column<'a> {
    fn as_item(&self) -> OutboundColumn<'a> {
        OutboundColumn {
            name: self.name.0,
            table: io::Oid(self.table),
            attribute: self.attribute,
            data_type: io::Oid(self.type_id),
            size: self.type_size,
            modifier: self.type_modifier,
            format: self.format.0,
        }
    }
}

/// Reads the body of a RowDescription.
pub(super) fn read<'a>(body: &'a [u8]) -> Result<List<'a, Column<'a>>, Fault> {
    let mut reader = ColumnReader::new(checked(body)?)?;
    let mut columns = Vec::with_capacity(reader.len());
    while let Some(column) = reader.next_raw_column()? {
        columns.push(column.into());
    }
    Ok(columns.into())
}

pub(super) fn write<B: Buffer>(columns: &[Column<'_>], out: &mut B) -> Result<(), Refusal> {
    put_answer(&OutboundRowDescription { columns }, out)
}

/// Reads the body of a ParameterDescription.
pub(super) fn read_types(body: &[u8]) -> Result<List<'static, Oid>, Fault> {
    let mut reader = Items::begin(checked(body)?, OID)?;
    let mut types = Vec::with_capacity(reader.len());
    while let Some(Number32(oid)) = reader.next()? {
        types.push(oid);
    }
    Ok(types.into())
}
