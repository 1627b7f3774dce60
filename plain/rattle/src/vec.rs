//! `Vec`, whose calls may be refused memory.

use crate::alloc::{AllocError, AllocFailed, Global};
use core::ops::{Deref, DerefMut};
use core::slice;
use rust_alloc::vec;

/// Rust's `Vec`, with calls that answer where memory is refused.
#[derive(Debug, PartialEq, Eq)]
pub struct Vec<T>(vec::Vec<T>);

impl<T> Vec<T> {
    /// No items. It asks for no memory.
    #[inline(always)]
    pub const fn new(_: Global) -> Self {
        Vec(vec::Vec::new())
    }

    /// No items, with room for just so many.
    #[inline]
    pub fn with_capacity(alloc: Global, room: usize) -> Result<Self, AllocError> {
        let mut items = Vec::new(alloc);
        items.reserve_exact(room)?;
        Ok(items)
    }

    /// How many items there are.
    #[inline(always)]
    pub fn len(&self) -> usize {
        self.0.len()
    }

    /// Whether there are none.
    #[inline(always)]
    pub fn is_empty(&self) -> bool {
        self.0.is_empty()
    }

    /// How many items it holds without asking for memory.
    #[inline(always)]
    pub fn capacity(&self) -> usize {
        self.0.capacity()
    }

    /// Where it asks for memory.
    #[inline(always)]
    pub fn allocator(&self) -> &Global {
        &Global
    }

    /// The items.
    #[inline(always)]
    pub fn as_slice(&self) -> &[T] {
        &self.0
    }

    /// The items, to be changed.
    #[inline(always)]
    pub fn as_mut_slice(&mut self) -> &mut [T] {
        &mut self.0
    }

    /// Takes out all.
    #[inline(always)]
    pub fn clear(&mut self) {
        self.0.clear();
    }

    /// Takes out all but the first so many.
    #[inline(always)]
    pub fn truncate(&mut self, len: usize) {
        self.0.truncate(len);
    }

    /// Takes out the last.
    #[inline(always)]
    pub fn pop(&mut self) -> Option<T> {
        self.0.pop()
    }

    /// Makes room for at least so many more.
    #[inline(always)]
    pub fn reserve(&mut self, more: usize) -> Result<(), AllocError> {
        self.0.try_reserve(more).map_err(|_| AllocError)
    }

    /// Makes room for just so many more.
    #[inline(always)]
    pub fn reserve_exact(&mut self, more: usize) -> Result<(), AllocError> {
        self.0.try_reserve_exact(more).map_err(|_| AllocError)
    }

    /// Adds an item.
    #[inline]
    pub fn push(&mut self, item: T) -> Result<(), AllocFailed<T>> {
        if self.len() == self.capacity() && self.reserve(1).is_err() {
            return Err(AllocFailed { value: item });
        }
        self.push_reserved(item);
        Ok(())
    }

    /// Adds an item for which there is room: `len` is below `capacity`. Erased sources are proved to keep that; for others
    /// it is tested, and ends in a panic.
    #[inline(always)]
    pub fn push_reserved(&mut self, item: T) {
        assert!(self.len() < self.capacity());
        self.0.push(item);
    }
}

impl<T: Copy> Vec<T> {
    /// The items of a slice.
    #[inline]
    pub fn from_slice(alloc: Global, from: &[T]) -> Result<Self, AllocError> {
        let mut items = Vec::with_capacity(alloc, from.len())?;
        items.extend_from_slice(from)?;
        Ok(items)
    }

    /// One item so many times.
    pub fn filled(alloc: Global, item: T, len: usize) -> Result<Self, AllocError> {
        let mut items = Vec::with_capacity(alloc, len)?;
        items.0.resize(len, item);
        Ok(items)
    }

    /// Adds the items of a slice.
    #[inline(always)]
    pub fn extend_from_slice(&mut self, from: &[T]) -> Result<(), AllocError> {
        if from.len() > self.capacity() - self.len() {
            self.reserve(from.len())?;
        }
        self.0.extend_from_slice(from);
        Ok(())
    }

    /// Takes items out at the end or adds copies of one, until there are so many.
    pub fn resize(&mut self, len: usize, item: T) -> Result<(), AllocError> {
        self.reserve(len.saturating_sub(self.len()))?;
        self.0.resize(len, item);
        Ok(())
    }

    /// The same items in memory of their own.
    #[allow(clippy::should_implement_trait)]
    pub fn clone(&self) -> Result<Self, AllocError> {
        Vec::from_slice(Global, self)
    }
}

impl<T> From<vec::Vec<T>> for Vec<T> {
    #[inline(always)]
    fn from(items: vec::Vec<T>) -> Self {
        Vec(items)
    }
}

impl<T> From<Vec<T>> for vec::Vec<T> {
    #[inline(always)]
    fn from(items: Vec<T>) -> Self {
        items.0
    }
}

impl<T> Deref for Vec<T> {
    type Target = [T];

    #[inline(always)]
    fn deref(&self) -> &[T] {
        &self.0
    }
}

impl<T> DerefMut for Vec<T> {
    #[inline(always)]
    fn deref_mut(&mut self) -> &mut [T] {
        &mut self.0
    }
}

impl<T> IntoIterator for Vec<T> {
    type Item = T;
    type IntoIter = vec::IntoIter<T>;

    fn into_iter(self) -> Self::IntoIter {
        self.0.into_iter()
    }
}

impl<'a, T> IntoIterator for &'a Vec<T> {
    type Item = &'a T;
    type IntoIter = slice::Iter<'a, T>;

    fn into_iter(self) -> Self::IntoIter {
        self.0.iter()
    }
}

impl<'a, T> IntoIterator for &'a mut Vec<T> {
    type Item = &'a mut T;
    type IntoIter = slice::IterMut<'a, T>;

    fn into_iter(self) -> Self::IntoIter {
        self.0.iter_mut()
    }
}

/// A [`Vec`] of items, or of one item so many times.
#[macro_export]
macro_rules! vec_in {
    ($alloc:expr; $item:expr; $len:expr) => {
        $crate::vec::Vec::filled($alloc, $item, $len)
    };
    ($alloc:expr; $($item:expr),* $(,)?) => {
        $crate::vec::Vec::from_slice($alloc, &[$($item),*])
    };
}
