//! Bytes of messages, as they are shown.

use alloc::borrow::Cow;
use alloc::string::String;
use core::fmt;
use core::ops::Deref;
use core::str::{self, Utf8Error};
use pgmsg_core::pg_server::backend::{AsOutboundItem, Mechanism};

/// Bytes that are a text mostly, in the encoding of the client or the server: they need not be UTF-8.
///
/// ```
/// use pgmsg::ByteStr;
///
/// let query = ByteStr::from("SELECT 'é'");
/// assert_eq!(query.as_str(), Ok("SELECT 'é'"));
/// assert_eq!(format!("{query:?}"), r#"b"SELECT \'\xc3\xa9\'""#);
/// assert!(ByteStr(b"caf\xe9").as_str().is_err());
/// ```
#[derive(Clone, Copy, Default, PartialEq, Eq, PartialOrd, Ord, Hash)]
pub struct ByteStr<'a>(pub &'a [u8]);

impl<'a> ByteStr<'a> {
    /// The text, where it is UTF-8.
    #[inline]
    pub fn as_str(self) -> Result<&'a str, Utf8Error> {
        str::from_utf8(self.0)
    }

    /// The text, where U+FFFD stands for each run of bytes that isn't UTF-8.
    pub fn to_str_lossy(self) -> Cow<'a, str> {
        String::from_utf8_lossy(self.0)
    }

    /// The same for a terminal, with an escape for each control character and for those that change the order
    /// in which the next ones are shown, which the terminal would obey.
    ///
    /// ```
    /// use pgmsg::ByteStr;
    ///
    /// assert_eq!(ByteStr::from("é\t\u{1b}[2J\u{9b}\u{202e}").to_printable(), r"é\t\u{1b}[2J\u{9b}\u{202e}");
    /// assert_eq!(ByteStr(b"\x9b").to_printable(), "\u{fffd}");
    /// ```
    pub fn to_printable(self) -> String {
        let mut shown = String::new();
        for character in self.to_str_lossy().chars() {
            match character {
                '\u{202a}'..='\u{202e}' | '\u{2066}'..='\u{2069}' => {
                    shown.extend(character.escape_default())
                }
                _ if character.is_control() => shown.extend(character.escape_default()),
                _ => shown.push(character),
            }
        }
        shown
    }
}

/// Shows it as a literal of bytes, whatever they are.
impl fmt::Debug for ByteStr<'_> {
    fn fmt(&self, f: &mut fmt::Formatter<'_>) -> fmt::Result {
        write!(f, "b\"{}\"", self.0.escape_ascii())
    }
}

impl Deref for ByteStr<'_> {
    type Target = [u8];

    #[inline]
    fn deref(&self) -> &[u8] {
        self.0
    }
}

impl<'a> From<ByteStr<'a>> for &'a [u8] {
    #[inline]
    fn from(text: ByteStr<'a>) -> &'a [u8] {
        text.0
    }
}

/// As a name in a list.
impl<'a> AsOutboundItem<&'a [u8]> for ByteStr<'a> {
    fn as_item(&self) -> &'a [u8] {
        self.0
    }
}

/// As a mechanism of authentication.
impl<'a> AsOutboundItem<Mechanism<'a>> for ByteStr<'a> {
    fn as_item(&self) -> Mechanism<'a> {
        Mechanism(self.0)
    }
}

impl<'a, T: AsRef<[u8]> + ?Sized> From<&'a T> for ByteStr<'a> {
    #[inline]
    fn from(bytes: &'a T) -> ByteStr<'a> {
        ByteStr(bytes.as_ref())
    }
}

impl<T: AsRef<[u8]> + ?Sized> PartialEq<T> for ByteStr<'_> {
    #[inline]
    fn eq(&self, other: &T) -> bool {
        self.0 == other.as_ref()
    }
}

/// Bytes that prove who someone is, such as a password or a key: only their number is shown.
///
/// ```
/// assert_eq!(format!("{:?}", pgmsg::Secret(b"password")), "Secret(8 bytes)");
/// ```
#[derive(Clone, Copy, Default, PartialEq, Eq)]
pub struct Secret<'a>(pub &'a [u8]);

impl fmt::Debug for Secret<'_> {
    fn fmt(&self, f: &mut fmt::Formatter<'_>) -> fmt::Result {
        write!(f, "Secret({} bytes)", self.0.len())
    }
}

impl<'a, T: AsRef<[u8]> + ?Sized> From<&'a T> for Secret<'a> {
    #[inline]
    fn from(bytes: &'a T) -> Secret<'a> {
        Secret(bytes.as_ref())
    }
}
