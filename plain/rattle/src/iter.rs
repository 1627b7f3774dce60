//! What is collected where memory may be refused.

use crate::alloc::{AllocError, Global};
use crate::vec::Vec;

/// `collect` with an allocator.
pub trait CollectIn: Iterator + Sized {
    /// Collects the items.
    fn collect_in<C: FromIn<Self::Item>>(self, alloc: Global) -> Result<C, AllocError> {
        C::from_in(alloc, self)
    }
}

impl<I: Iterator> CollectIn for I {}

/// What items are collected into.
pub trait FromIn<T>: Sized {
    /// The items, where there is memory for them.
    fn from_in<I: Iterator<Item = T>>(alloc: Global, items: I) -> Result<Self, AllocError>;
}

impl<T> FromIn<T> for Vec<T> {
    fn from_in<I: Iterator<Item = T>>(alloc: Global, items: I) -> Result<Self, AllocError> {
        let mut all = Vec::with_capacity(alloc, items.size_hint().0)?;
        for item in items {
            all.push(item)?;
        }
        Ok(all)
    }
}

impl<T, E> FromIn<Result<T, E>> for Result<Vec<T>, E> {
    fn from_in<I: Iterator<Item = Result<T, E>>>(
        alloc: Global,
        items: I,
    ) -> Result<Self, AllocError> {
        let mut all = Vec::new(alloc);
        for item in items {
            match item {
                Ok(item) => all.push(item)?,
                Err(error) => return Ok(Err(error)),
            }
        }
        Ok(Ok(all))
    }
}
