//! What `pgmsg` doesn't write or read, by hand.

use pgmsg::{backend, ByteStr};
use std::io;

/// The bytes of a message before its body: its tag and its length.
pub(crate) const HEAD: usize = 5;

/// Bytes that are refused, or a value that is.
#[cold]
pub(crate) fn refused(words: &'static str) -> io::Error {
    io::Error::new(io::ErrorKind::InvalidInput, words)
}

/// Passes on the items of a list as a slice, which needs no memory where they are few.
#[inline]
pub(crate) fn with_list<T: Copy + Default, R>(
    items: impl IntoIterator<Item = T>,
    take: impl FnOnce(&[T]) -> R,
) -> R {
    let (mut few, mut items) = ([T::default(); 16], items.into_iter());
    for count in 0..few.len() {
        match items.next() {
            Some(item) => few[count] = item,
            None => return take(&few[..count]),
        }
    }
    let all: Vec<T> = few.into_iter().chain(items).collect();
    take(&all)
}

/// Tests that a body ends where the message of a tag does.
#[inline]
pub(crate) fn ends(tag: u8, body: &[u8]) -> io::Result<()> {
    match backend::end(tag, body)? == body.len() {
        true => Ok(()),
        false => Err(refused("message body goes on after its last item")),
    }
}

/// The text, where it is UTF-8.
#[inline]
pub(crate) fn text(text: ByteStr<'_>) -> io::Result<&str> {
    text.as_str().map_err(|_| refused("text is not UTF-8"))
}

/// Tests that a body has so many bytes at least, such as the count that a list is read by later.
#[inline]
pub(crate) fn has(body: &[u8], least: usize) -> io::Result<()> {
    match body.len() < least {
        true => Err(refused("message body is too short")),
        false => Ok(()),
    }
}
