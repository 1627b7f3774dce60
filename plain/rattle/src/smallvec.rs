//! `SmallVec`, whose calls may be refused memory.

use crate::alloc::{AllocError, AllocFailed, Global};
use crate::vec::Vec;
use core::slice;

/// Items of which the first `N` need no memory.
#[derive(Clone, Debug, PartialEq, Eq)]
pub struct SmallVec<T, const N: usize>(smallvec_crate::SmallVec<[T; N]>);

impl<T, const N: usize> SmallVec<T, N> {
    /// No items.
    #[inline(always)]
    pub fn new(_: Global) -> Self {
        SmallVec(smallvec_crate::SmallVec::new())
    }

    /// The items of a `Vec`, in its memory where they are more than `N`.
    pub fn from_vec(items: Vec<T>) -> Self {
        SmallVec(smallvec_crate::SmallVec::from_vec(items.into()))
    }

    /// How many items there are.
    #[inline(always)]
    pub fn len(&self) -> usize {
        self.0.len()
    }

    /// Whether there are none.
    #[inline(always)]
    pub fn is_empty(&self) -> bool {
        self.0.is_empty()
    }

    /// How many items it holds without asking for memory.
    #[inline(always)]
    pub fn capacity(&self) -> usize {
        self.0.capacity()
    }

    /// The items.
    #[inline(always)]
    pub fn as_slice(&self) -> &[T] {
        &self.0
    }

    /// The items, one by one.
    #[inline(always)]
    pub fn iter(&self) -> slice::Iter<'_, T> {
        self.0.iter()
    }

    /// Takes out all.
    #[inline(always)]
    pub fn clear(&mut self) {
        self.0.clear();
    }

    /// Makes room for at least so many more.
    #[inline(always)]
    pub fn reserve(&mut self, more: usize) -> Result<(), AllocError> {
        self.0.try_reserve(more).map_err(|_| AllocError)
    }

    /// Makes room for just so many more.
    #[inline(always)]
    pub fn reserve_exact(&mut self, more: usize) -> Result<(), AllocError> {
        self.0.try_reserve_exact(more).map_err(|_| AllocError)
    }

    /// Adds an item.
    #[inline]
    pub fn push(&mut self, item: T) -> Result<(), AllocFailed<T>> {
        if self.len() == self.capacity() && self.reserve(1).is_err() {
            return Err(AllocFailed { value: item });
        }
        self.push_reserved(item);
        Ok(())
    }

    /// Adds an item for which there is room, as [`Vec::push_reserved`] does.
    #[inline(always)]
    pub fn push_reserved(&mut self, item: T) {
        assert!(self.len() < self.capacity());
        self.0.push(item);
    }
}
