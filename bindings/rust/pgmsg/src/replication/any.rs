//! The enum of all messages of a kind, by a table.

/// Makes an enum of structs of the core, each with the byte that its message begins with, and what it and the core's
/// own enum become each other by.
macro_rules! any {
    (
        $(#[$doc:meta])*
        pub enum $any:ident of $of_core:ident {$(
            $(#[$row_doc:meta])*
            $name:ident($type:ty) = $letter:literal;
        )*}
    ) => {
        $(#[$doc])*
        #[derive(Clone, Copy, Debug, PartialEq, Eq)]
        #[non_exhaustive]
        pub enum $any<'a> {
            $($(#[$row_doc])* $name($type),)*
        }

        impl $any<'_> {
            /// The byte that the message begins with.
            pub fn letter(&self) -> u8 {
                match self {
                    $($any::$name(_) => $letter,)*
                }
            }
        }

        impl<'a> From<$of_core<'a>> for $any<'a> {
            #[inline]
            fn from(message: $of_core<'a>) -> Self {
                match message {
                    $($of_core::$name(it) => $any::$name(it),)*
                }
            }
        }

        impl<'a> From<$any<'a>> for $of_core<'a> {
            #[inline]
            fn from(message: $any<'a>) -> Self {
                match message {
                    $($any::$name(it) => $of_core::$name(it),)*
                }
            }
        }
    };
}

pub(crate) use any;
