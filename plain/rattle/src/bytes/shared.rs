//! `Bytes`, which several share.

use super::block::Block;
use super::part::Part;
use super::pointer::Pointer;
use super::BytesMut;
use crate::alloc::{AllocError, AllocFailed, Global};
use crate::vec::Vec;
use core::ops::{Bound, Deref, RangeBounds};
use core::{fmt, mem};

/// Bytes that several may own, in one block of memory.
pub struct Bytes {
    // In the block, or static where there is none. A `BytesMut` of the same block writes what is behind.
    pub(super) part: Part,
    pub(super) block: Option<Block>,
}

impl Bytes {
    /// No bytes.
    #[inline(always)]
    pub const fn new() -> Self {
        Self::from_static(&[])
    }

    /// Bytes that are there for ever.
    #[inline(always)]
    pub const fn from_static(bytes: &'static [u8]) -> Self {
        Bytes { part: Part::of_static(bytes), block: None }
    }

    /// The bytes of a `Vec`, in its memory.
    pub fn from_vec(bytes: Vec<u8>) -> Result<Self, AllocFailed<Vec<u8>>> {
        let mut bytes = rust_alloc::vec::Vec::from(bytes);
        if bytes.capacity() == 0 {
            return Ok(Bytes::new());
        }
        let part = Part { at: Pointer(bytes.as_mut_ptr()), len: bytes.len() };
        match Block::new(bytes) {
            Ok(block) => Ok(Bytes { part, block: Some(block) }),
            Err(bytes) => Err(AllocFailed { value: bytes.into() }),
        }
    }

    /// A copy of some bytes.
    pub fn copy_from_slice(alloc: Global, bytes: &[u8]) -> Result<Self, AllocError> {
        Ok(Bytes::from_vec(Vec::from_slice(alloc, bytes)?)?)
    }

    /// How many there are.
    #[inline(always)]
    pub fn len(&self) -> usize {
        self.part.len
    }

    /// Whether there are none.
    #[inline(always)]
    pub fn is_empty(&self) -> bool {
        self.part.len == 0
    }

    /// The bytes.
    #[inline(always)]
    pub fn as_slice(&self) -> &[u8] {
        self.part.bytes()
    }

    // Some of the bytes, which are within. None share no block.
    #[inline(always)]
    fn within(&self, from: usize, len: usize) -> Result<Self, AllocError> {
        if len == 0 {
            return Ok(Bytes::new());
        }
        let block = self.block.as_ref().map(Block::share).transpose()?;
        Ok(Bytes { part: Part { at: Pointer(self.part.at.0.wrapping_add(from)), len }, block })
    }

    /// Some of the bytes, shared.
    pub fn slice<R: RangeBounds<usize>>(&self, range: R) -> Result<Self, AllocError> {
        let from = match range.start_bound() {
            Bound::Included(from) => *from,
            Bound::Excluded(before) => before + 1,
            Bound::Unbounded => 0,
        };
        let end = match range.end_bound() {
            Bound::Included(last) => last + 1,
            Bound::Excluded(end) => *end,
            Bound::Unbounded => self.len(),
        };
        assert!(from <= end && end <= self.len());
        self.within(from, end - from)
    }

    /// Takes out the first bytes, shared. What is left of none keeps no block.
    #[inline]
    pub fn split_to(&mut self, at: usize) -> Result<Self, AllocError> {
        assert!(at <= self.len());
        if at == self.len() {
            return Ok(mem::take(self));
        }
        let front = self.within(0, at)?;
        self.part.advance(at);
        Ok(front)
    }

    /// Leaves out the first bytes.
    #[inline(always)]
    pub fn advance(&mut self, count: usize) {
        self.part.advance(count);
    }

    /// Leaves out all but the first bytes.
    #[inline(always)]
    pub fn truncate(&mut self, len: usize) {
        self.part.len = self.part.len.min(len);
    }

    /// The same bytes, shared.
    #[inline(always)]
    #[allow(clippy::should_implement_trait)]
    pub fn clone(&self) -> Result<Self, AllocError> {
        self.within(0, self.len())
    }

    /// The bytes to be added to, with the rest of their block, where no one else shares it.
    pub fn try_into_mut(self) -> Result<BytesMut, Bytes> {
        match self.block {
            Some(block) if block.is_unique() => Ok(BytesMut::of_block(self.part, block)),
            _ => Err(self),
        }
    }
}

impl Deref for Bytes {
    type Target = [u8];

    #[inline(always)]
    fn deref(&self) -> &[u8] {
        self.as_slice()
    }
}

impl Default for Bytes {
    fn default() -> Self {
        Bytes::new()
    }
}

impl PartialEq for Bytes {
    fn eq(&self, other: &Self) -> bool {
        self.as_slice() == other.as_slice()
    }
}

impl Eq for Bytes {}

impl fmt::Debug for Bytes {
    fn fmt(&self, f: &mut fmt::Formatter<'_>) -> fmt::Result {
        self.as_slice().fmt(f)
    }
}
