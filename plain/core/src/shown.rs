//! Rows, tables and changes of logical replication, as they are shown and compared: a list by its items.

use crate::pg_replication::logical::{
    Delete, Insert, Old, Relation, Relations, TableColumns, Truncate, Tuple, Update,
};
use crate::pg_replication::StandbyStatusUpdate;
use core::fmt;

/// Lists that are walked by a copy.
macro_rules! by_items {
    ($($list:ident of $item:ty;)*) => {$(
        impl<'a> $list<'a> {
            /// The items that are left, in order.
            #[inline]
            pub fn iter(&self) -> impl Iterator<Item = $item> + 'a {
                *self
            }
        }

        impl fmt::Debug for $list<'_> {
            fn fmt(&self, f: &mut fmt::Formatter<'_>) -> fmt::Result {
                f.debug_list().entries(*self).finish()
            }
        }

        impl PartialEq for $list<'_> {
            fn eq(&self, other: &Self) -> bool {
                Iterator::eq(*self, *other)
            }
        }

        impl Eq for $list<'_> {}
    )*};
}

by_items! {
    Tuple of crate::pg_replication::logical::Datum<'a>;
    TableColumns of crate::pg_replication::logical::TableColumn<'a>;
    Relations of u32;
}

/// Structs by their fields.
macro_rules! by_fields {
    ($($name:ident { $($field:ident),* })*) => {$(
        impl fmt::Debug for $name<'_> {
            fn fmt(&self, f: &mut fmt::Formatter<'_>) -> fmt::Result {
                let mut shown = f.debug_struct(stringify!($name));
                $(shown.field(stringify!($field), &self.$field);)*
                shown.finish()
            }
        }

        impl PartialEq for $name<'_> {
            fn eq(&self, other: &Self) -> bool {
                $(self.$field == other.$field)&&*
            }
        }

        impl Eq for $name<'_> {}
    )*};
}

by_fields! {
    Relation { transaction, relation, schema, name, replica_identity, columns }
    Insert { transaction, relation, new }
    Update { transaction, relation, old, new }
    Delete { transaction, relation, old }
    Truncate { transaction, options, relations }
}

impl fmt::Debug for Old<'_> {
    fn fmt(&self, f: &mut fmt::Formatter<'_>) -> fmt::Result {
        match self {
            Old::Key(row) => f.debug_tuple("Key").field(row).finish(),
            Old::Whole(row) => f.debug_tuple("Whole").field(row).finish(),
        }
    }
}

impl PartialEq for Old<'_> {
    fn eq(&self, other: &Self) -> bool {
        match (self, other) {
            (Old::Key(row), Old::Key(other)) | (Old::Whole(row), Old::Whole(other)) => row == other,
            _ => false,
        }
    }
}

impl Eq for Old<'_> {}

/// Nothing is written yet, and no answer is wanted.
impl Default for StandbyStatusUpdate {
    fn default() -> Self {
        StandbyStatusUpdate { written: 0, flushed: 0, applied: 0, clock: 0, wants_reply: false }
    }
}
