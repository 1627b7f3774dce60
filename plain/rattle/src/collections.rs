//! `VecDeque`, whose calls may be refused memory.

use crate::alloc::{AllocFailed, Global};
use core::ops::Index;
use rust_alloc::collections;

/// Rust's `VecDeque`, with calls that answer where memory is refused.
#[derive(Debug, PartialEq, Eq)]
pub struct VecDeque<T>(collections::VecDeque<T>);

impl<T> VecDeque<T> {
    /// No items. It asks for no memory.
    #[inline(always)]
    pub const fn new(_: Global) -> Self {
        VecDeque(collections::VecDeque::new())
    }

    /// How many items there are.
    #[inline(always)]
    pub fn len(&self) -> usize {
        self.0.len()
    }

    /// Whether there are none.
    #[inline(always)]
    pub fn is_empty(&self) -> bool {
        self.0.is_empty()
    }

    /// The first item.
    #[inline(always)]
    pub fn front(&self) -> Option<&T> {
        self.0.front()
    }

    /// Adds an item behind the others.
    #[inline]
    pub fn push_back(&mut self, item: T) -> Result<(), AllocFailed<T>> {
        if self.0.try_reserve(1).is_err() {
            return Err(AllocFailed { value: item });
        }
        self.0.push_back(item);
        Ok(())
    }

    /// Takes out the first.
    #[inline(always)]
    pub fn pop_front(&mut self) -> Option<T> {
        self.0.pop_front()
    }

    /// Takes out all.
    #[inline(always)]
    pub fn clear(&mut self) {
        self.0.clear();
    }
}

impl<T> Index<usize> for VecDeque<T> {
    type Output = T;

    #[inline(always)]
    fn index(&self, place: usize) -> &T {
        &self.0[place]
    }
}
