//! Values that are spelled one after the other.

use crate::buffer::Buffer;
use crate::value::Value;
use alloc::vec::Vec;
use core::fmt;

/// The values of parameters, spelled one after the other into one buffer.
///
/// It serves a program that has no bytes of its values yet. [`clear`](Values::clear) keeps the
/// allocations for the next Bind.
///
/// ```
/// use pgmsg::{frontend::Bind, Values};
///
/// let mut values: Values = Values::default();
/// for number in [Some(7i32), None] {
///     values.push(|bytes| {
///         let number = number.map(i32::to_be_bytes);
///         Ok::<_, pgmsg::Refusal>(number.map(|number| bytes.extend_from_slice(&number)))
///     })?;
/// }
/// let mut out = Vec::new();
/// Bind { values: values.list().into(), ..Bind::default() }.write(&mut out)?;
/// assert!(out.ends_with(b"\0\x02\0\0\0\x04\0\0\0\x07\xff\xff\xff\xff\0\0"));
/// # Ok::<(), pgmsg::Refusal>(())
/// ```
#[derive(Default)]
pub struct Values<B = Vec<u8>> {
    buffer: B,
    /// How many bytes of the buffer are those of values. More are there where what spells one panicked.
    end: usize,
    /// The length of each value, none where it is NULL.
    lengths: Vec<Option<usize>>,
}

impl<B: Buffer> Values<B> {
    /// Adds a value: the bytes that `spell` appends to the buffer, or NULL where it answers `None`.
    ///
    /// # Errors
    ///
    /// That of `spell`, and then no value is added.
    #[inline]
    pub fn push<E>(
        &mut self,
        spell: impl FnOnce(&mut B) -> Result<Option<()>, E>,
    ) -> Result<(), E> {
        self.buffer.truncate(self.end);
        let start = self.buffer.bytes().len();
        let spelled = spell(&mut self.buffer);
        if !matches!(spelled, Ok(Some(()))) {
            self.buffer.truncate(start);
        }
        self.end = self.buffer.bytes().len();
        let length = self.end.saturating_sub(start);
        self.lengths.push(spelled?.map(|()| length));
        Ok(())
    }

    /// The values.
    pub fn list(&self) -> Vec<Value<'_>> {
        let mut rest = self.buffer.bytes();
        let value_of = |length: &Option<usize>| {
            // There are as many, unless what spelled a later value took bytes of this one away.
            let (bytes, after) = rest.split_at((*length)?.min(rest.len()));
            rest = after;
            Some(bytes)
        };
        self.lengths.iter().map(value_of).map(Value::from).collect()
    }

    /// How many bytes the values have together.
    #[inline]
    pub fn bytes_len(&self) -> usize {
        self.end
    }

    /// Removes all values, and keeps the allocations.
    #[inline]
    pub fn clear(&mut self) {
        self.buffer.truncate(0);
        self.end = 0;
        self.lengths.clear();
    }
}

/// Shows the number of values alone, since the bytes may hold a password.
impl<B> fmt::Debug for Values<B> {
    fn fmt(&self, f: &mut fmt::Formatter<'_>) -> fmt::Result {
        f.debug_struct("Values").field("len", &self.lengths.len()).finish_non_exhaustive()
    }
}
