//! The enum of a side's messages, by a table.

use crate::body::checked;
use crate::buffer::{put_sound, Buffer};
use crate::error::{Fault, Refusal};
use pgmsg_core::pg_base::io::part::NoBytes;
use pgmsg_core::pg_server::frontend::read_empty;

/// Reads the body of a message that has none.
#[inline]
pub(crate) fn read_nothing(body: &[u8]) -> Result<(), Fault> {
    Ok(read_empty(checked(body)?)?)
}

/// Appends a message without a body.
#[inline]
pub(crate) fn put_nothing<B: Buffer>(tag: u8, out: &mut B) -> Result<(), Refusal> {
    put_sound(tag, NoBytes, Ok(()), out)
}

/// Makes the enum of a side's messages by a table: for each its parts, its tag, the function that reads its body, and
/// the one that writes its parts, or these arguments, unless it has no body. The first rows are of messages that are
/// not read by a tag of their own.
macro_rules! messages {
    (@read $body:ident $name:ident) => {{
        read_nothing($body)?;
        Message::$name
    }};
    (@read $body:ident $name:ident $read:expr) => { Message::$name($read($body)?) };
    (@write $out:ident ($($parts:ident)?) $($write:ident)::+) => { $($write)::+($($parts,)? $out) };
    (@write $out:ident ($($parts:ident)?) $($write:ident)::+($($arguments:expr),*)) => {
        $($write)::+($($arguments,)* $out)
    };
    (@write $out:ident $tag:literal) => { put_nothing($tag, $out) };
    (@write $out:ident $tag:literal $($write:tt)+) => { messages!(@write $out $($write)+) };
    (
        $(#[$doc:meta])*
        read by $read_rest:ident {$(
            $(#[$rest_doc:meta])*
            $rest:ident$(($rest_parts:ident: $rest_type:ty))? = $rest_tag:expr,
                $($write_rest:ident)::+;
        )*}
        read by tag {$(
            $(#[$row_doc:meta])*
            $name:ident$(($parts:ident: $type:ty))? = $tag:literal
                $(, $read:expr, $($write:ident)::+$(($($arguments:tt)*))?)?;
        )*}
    ) => {
        $(#[$doc])*
        #[derive(Clone, Debug, PartialEq, Eq)]
        #[non_exhaustive]
        pub enum Message<'a> {
            $($(#[$rest_doc])* $rest$(($rest_type))?,)*
            $($(#[$row_doc])* $name$(($type))?,)*
        }

        impl<'a> Message<'a> {
            /// Reads a message that was cut off a stream.
            #[inline]
            pub fn read(frame: &Frame<'a>) -> Result<Message<'a>, Fault> {
                Message::read_body(frame.tag, frame.body())
            }

            /// Reads the body of a message by its tag.
            #[inline]
            pub fn read_body(tag: Option<u8>, body: &'a [u8]) -> Result<Message<'a>, Fault> {
                Ok(match tag {
                    $(Some($tag) => messages!(@read body $name $($read)?),)*
                    _ => $read_rest(tag, body)?,
                })
            }

            /// Appends the message to a buffer, or leaves that as it was.
            #[inline]
            pub fn write<B: Buffer>(&self, out: &mut B) -> Result<(), Refusal> {
                match self {
                    $(Message::$rest$(($rest_parts))? => {
                        messages!(@write out ($($rest_parts)?) $($write_rest)::+)
                    })*
                    $(Message::$name$(($parts))? => {
                        messages!(@write out $tag $(($parts) $($write)::+$(($($arguments)*))?)?)
                    })*
                }
            }

            /// The tag that opens the message, or `None` where it has none.
            #[inline]
            #[allow(unused_variables)]
            pub fn tag(&self) -> Option<u8> {
                match self {
                    $(Message::$rest$(($rest_parts))? => $rest_tag,)*
                    $(Message::$name { .. } => Some($tag),)*
                }
            }

            /// The name of the variant, which is that of the message in PostgreSQL's documentation but for
            /// a few that share a tag.
            pub fn name(&self) -> &'static str {
                match self {
                    $(Message::$rest { .. } => stringify!($rest),)*
                    $(Message::$name { .. } => stringify!($name),)*
                }
            }
        }
    };
}

pub(crate) use messages;
