//! Bind, whose values a function of the caller writes where they are sent from.

use crate::lacking::{refused, with_list};
use crate::IsNull;
use bytes::{BufMut, BytesMut};
use original::message::frontend::BindError;
use pgmsg::{frontend, Format, Refusal};
use std::error::Error;
use std::io;
use std::mem;

/// The bytes of the two counts that end a Bind without values and result formats.
const COUNTS: usize = 4;

/// Makes a portal of a statement and the values of its parameters: Bind. `serializer` appends the
/// bytes of each value to the buffer that it is passed, or answers that it is NULL.
#[inline]
pub fn bind<I, J, F, T, K>(
    portal: &str,
    statement: &str,
    formats: I,
    values: J,
    mut serializer: F,
    result_formats: K,
    buf: &mut BytesMut,
) -> Result<(), BindError>
where
    I: IntoIterator<Item = i16>,
    J: IntoIterator<Item = T>,
    F: FnMut(T, &mut BytesMut) -> Result<IsNull, Box<dyn Error + Sync + Send>>,
    K: IntoIterator<Item = i16>,
{
    let start = buf.len();
    let message = Unfinished { buf, start };
    let buf = &mut *message.buf;
    let formats = formats.into_iter().map(Format);
    let put_value = |value, buf: &mut BytesMut| put_value(|buf| serializer(value, buf), buf);
    let put_format = |format, buf: &mut BytesMut| {
        buf.put_i16(format);
        Ok(())
    };
    with_list(formats, |formats| put_names(portal, statement, formats, buf))?;
    put_counted(values, put_value, Refusal::BadParams, buf)?;
    put_counted(result_formats, put_format, Refusal::TooManyResultFormats, buf)?;
    put_length(start, buf)?;
    mem::forget(message);
    Ok(())
}

/// A message that is being appended, of which nothing stays where it is refused, or where the caller's function panics:
/// what stood there of it would be sent before the next message.
struct Unfinished<'b> {
    buf: &'b mut BytesMut,
    start: usize,
}

impl Drop for Unfinished<'_> {
    fn drop(&mut self) {
        self.buf.truncate(self.start);
    }
}

/// Appends a Bind up to its values.
#[inline]
fn put_names(
    portal: &str,
    statement: &str,
    formats: &[Format],
    buf: &mut BytesMut,
) -> Result<(), BindError> {
    let (portal, statement) = (portal.into(), statement.into());
    let bind = frontend::Bind { portal, statement, formats: formats.into(), ..Default::default() };
    bind.write(buf).map_err(io::Error::from)?;
    buf.truncate(buf.len() - COUNTS);
    Ok(())
}

/// Appends items after their count, which is refused where it has more than two bytes.
#[inline]
fn put_counted<T>(
    items: impl IntoIterator<Item = T>,
    mut put: impl FnMut(T, &mut BytesMut) -> Result<(), BindError>,
    too_many: Refusal,
    buf: &mut BytesMut,
) -> Result<(), BindError> {
    let (at, mut count) = (buf.len(), 0usize);
    buf.put_u16(0);
    for item in items {
        put(item, buf)?;
        count += 1;
    }
    let count = u16::try_from(count).map_err(|_| io::Error::from(too_many))?;
    buf[at..at + 2].copy_from_slice(&count.to_be_bytes());
    Ok(())
}

/// Appends a value after its length, which is -1 where it is NULL.
#[inline]
fn put_value(
    put: impl FnOnce(&mut BytesMut) -> Result<IsNull, Box<dyn Error + Sync + Send>>,
    buf: &mut BytesMut,
) -> Result<(), BindError> {
    let at = buf.len();
    buf.put_i32(-1);
    let start = at + 4;
    let is_null = put(buf)?;
    let length = length_of(start, buf)?;
    match is_null {
        IsNull::Yes => buf.truncate(start),
        IsNull::No => buf[at..start].copy_from_slice(&length.to_be_bytes()),
    }
    Ok(())
}

/// Writes the length of the message that begins at an offset.
#[inline]
fn put_length(start: usize, buf: &mut BytesMut) -> Result<(), BindError> {
    let at = start + 1;
    let length = length_of(at, buf)?;
    buf[at..at + 4].copy_from_slice(&length.to_be_bytes());
    Ok(())
}

/// How many bytes there are from an offset on. A caller's function may have taken away those before it.
#[inline]
fn length_of(start: usize, buf: &BytesMut) -> Result<i32, BindError> {
    match buf.len().checked_sub(start).map(i32::try_from) {
        Some(Ok(length)) => Ok(length),
        Some(Err(_)) => Err(io::Error::from(Refusal::MessageTooLong).into()),
        None => Err(refused("bytes before a value are gone").into()),
    }
}
