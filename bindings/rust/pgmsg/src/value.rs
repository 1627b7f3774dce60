//! The values of parameters and rows, and their formats.

use crate::byte_str::ByteStr;
use core::fmt;
use pgmsg_core::pg_send::message::counted::Code;
use pgmsg_core::pg_send::message::values::AsValue;
use pgmsg_core::pg_server::backend::AsOutboundItem;

/// A value of a parameter, an argument or a row: bytes, which it borrows, or NULL.
///
/// ```
/// use pgmsg::Value;
///
/// let values = [Value::new(b"5"), "five".into(), Value::NULL, None::<&[u8]>.into()];
/// assert_eq!(values[1].bytes(), Some(&b"five"[..]));
/// assert_eq!(values[3].bytes(), None);
/// ```
#[derive(Clone, Copy, Default, PartialEq, Eq, Hash)]
pub struct Value<'a>(Option<&'a [u8]>);

impl<'a> Value<'a> {
    /// The value NULL.
    pub const NULL: Value<'static> = Value(None);

    /// A value that is these bytes.
    #[inline]
    pub const fn new(bytes: &'a [u8]) -> Value<'a> {
        Value(Some(bytes))
    }

    /// The bytes of the value, or `None` where it is NULL.
    #[inline]
    pub const fn bytes(self) -> Option<&'a [u8]> {
        self.0
    }
}

/// As a client writes it.
impl AsValue for Value<'_> {
    #[inline(always)]
    fn as_value(&self) -> Option<&[u8]> {
        self.0
    }
}

/// As a server writes it.
impl<'a> AsOutboundItem<Option<&'a [u8]>> for Value<'a> {
    #[inline(always)]
    fn as_item(&self) -> Option<&'a [u8]> {
        self.0
    }
}

impl<'a, T: AsRef<[u8]> + ?Sized> From<&'a T> for Value<'a> {
    #[inline]
    fn from(bytes: &'a T) -> Value<'a> {
        Value::new(bytes.as_ref())
    }
}

/// NULL where there is none.
impl<'a, T: Into<Value<'a>>> From<Option<T>> for Value<'a> {
    #[inline]
    fn from(value: Option<T>) -> Value<'a> {
        value.map_or(Value::NULL, T::into)
    }
}

impl fmt::Debug for Value<'_> {
    fn fmt(&self, f: &mut fmt::Formatter<'_>) -> fmt::Result {
        match self.0 {
            Some(bytes) => ByteStr(bytes).fmt(f),
            None => f.write_str("NULL"),
        }
    }
}

/// How a value is spelled, by its code: the protocol defines 0 for text and 1 for the binary form of its
/// type, and reserves the others.
///
/// ```
/// use pgmsg::Format;
///
/// assert_eq!((Format::default(), Format(1)), (Format::TEXT, Format::BINARY));
/// ```
#[derive(Clone, Copy, Debug, Default, PartialEq, Eq, Hash)]
pub struct Format(pub i16);

impl Format {
    /// As text.
    pub const TEXT: Format = Format(0);
    /// In the binary form of its type.
    pub const BINARY: Format = Format(1);
}

impl Code for Format {
    #[inline(always)]
    fn code(&self) -> u16 {
        self.0 as u16
    }
}
