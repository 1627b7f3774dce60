//! The columns of a result, and the types of a statement's parameters.

use super::body::{body, getters};
use super::items::Items;
use crate::lacking::{ends, refused, text};
use crate::Oid;
use pgmsg::backend::{self, Column};
use std::io;

/// The bytes of the count before a list.
const COUNT: usize = 2;

body! {
    /// The columns of a result.
    RowDescriptionBody of COUNT, {
        /// The columns.
        fields(self) -> Fields<'_> = Items::new(fields(&self.0));
    }
}

/// The columns of a result.
pub type Fields<'a> = Items<'a, Field<'a>>;

fn fields(body: &[u8]) -> io::Result<Vec<Field<'_>>> {
    let columns = match backend::Message::read_body(Some(b'T'), body)? {
        backend::Message::RowDescription(columns) => columns,
        _ => return Err(refused("not the columns of a result")),
    };
    ends(b'T', body)?;
    let fields = columns.iter().map(|&column| {
        let name = text(column.name)?;
        Ok(Field { name, column })
    });
    fields.collect()
}

/// A column of a result.
pub struct Field<'a> {
    name: &'a str,
    column: Column<'a>,
}

impl<'a> Field<'a> {
    getters! {
        /// The name of the column.
        name(self) -> &'a str = self.name;
        /// The object id of the table that the column is of, or 0.
        table_oid(self) -> Oid = self.column.table;
        /// The number of the column in its table, or 0.
        column_id(self) -> i16 = self.column.attribute;
        /// The object id of the type.
        type_oid(self) -> Oid = self.column.type_id;
        /// How many bytes a value has, below 0 where that varies.
        type_size(self) -> i16 = self.column.type_size;
        /// The modifier of the type.
        type_modifier(self) -> i32 = self.column.type_modifier;
        /// The format of the values: 0 for text, 1 for binary.
        format(self) -> i16 = self.column.format.0;
    }
}

body! {
    /// The types of a statement's parameters.
    ParameterDescriptionBody of COUNT, {
        /// The object ids of the types.
        parameters(self) -> Parameters<'_> = Items::new(parameters(&self.0));
    }
}

/// The object ids of types.
pub type Parameters<'a> = Items<'a, Oid>;

fn parameters(body: &[u8]) -> io::Result<Vec<Oid>> {
    let types = match backend::Message::read_body(Some(b't'), body)? {
        backend::Message::ParameterDescription(types) => types,
        _ => return Err(refused("not the types of parameters")),
    };
    ends(b't', body)?;
    Ok(types.into_vec())
}
