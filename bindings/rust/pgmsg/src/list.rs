//! The lists of messages.

use crate::error::Refusal;
use alloc::vec::Vec;
use core::fmt;
use core::ops::Deref;
use core::slice;

/// A list in a message: a slice that is borrowed, of a message that is written, or a vector, of one that
/// was read.
///
/// ```
/// use pgmsg::List;
///
/// let types: List<'_, u32> = [23, 25].into();
/// assert_eq!((types.len(), types.get(1)), (2, Some(&25)));
/// assert_eq!(types, List::from(&[23, 25]));
/// ```
#[derive(Clone)]
pub struct List<'a, T>(Items<'a, T>);

/// A [`Cow`](alloc::borrow::Cow) whose items may borrow for less than they do.
#[derive(Clone)]
enum Items<'a, T> {
    Borrowed(&'a [T]),
    Owned(Vec<T>),
}

impl<T> List<'_, T> {
    /// So many items.
    pub(crate) fn of(count: usize, items: impl Iterator<Item = T>) -> Result<Self, Refusal> {
        let mut owned = Vec::new();
        owned.try_reserve_exact(count).map_err(|_| Refusal::OutOfMemory)?;
        owned.extend(items);
        Ok(List(Items::Owned(owned)))
    }
}

impl<T: Clone> List<'_, T> {
    /// The items in a vector, which is the list's own where it has one.
    pub fn into_vec(self) -> Vec<T> {
        match self.0 {
            Items::Borrowed(items) => items.to_vec(),
            Items::Owned(items) => items,
        }
    }
}

impl<T> Deref for List<'_, T> {
    type Target = [T];

    #[inline]
    fn deref(&self) -> &[T] {
        match &self.0 {
            Items::Borrowed(items) => items,
            Items::Owned(items) => items,
        }
    }
}

impl<T> Default for List<'_, T> {
    #[inline]
    fn default() -> Self {
        List(Items::Borrowed(&[]))
    }
}

impl<T: PartialEq> PartialEq for List<'_, T> {
    fn eq(&self, other: &Self) -> bool {
        **self == **other
    }
}

impl<T: Eq> Eq for List<'_, T> {}

impl<T: fmt::Debug> fmt::Debug for List<'_, T> {
    fn fmt(&self, f: &mut fmt::Formatter<'_>) -> fmt::Result {
        (**self).fmt(f)
    }
}

impl<'a, T, S: AsRef<[T]> + ?Sized> From<&'a S> for List<'a, T> {
    #[inline]
    fn from(items: &'a S) -> List<'a, T> {
        List(Items::Borrowed(items.as_ref()))
    }
}

impl<T> From<Vec<T>> for List<'_, T> {
    #[inline]
    fn from(items: Vec<T>) -> Self {
        List(Items::Owned(items))
    }
}

impl<T, const N: usize> From<[T; N]> for List<'_, T> {
    #[inline]
    fn from(items: [T; N]) -> Self {
        List(Items::Owned(items.into()))
    }
}

impl<T> FromIterator<T> for List<'_, T> {
    fn from_iter<I: IntoIterator<Item = T>>(items: I) -> Self {
        List(Items::Owned(items.into_iter().collect()))
    }
}

impl<'s, T> IntoIterator for &'s List<'_, T> {
    type Item = &'s T;
    type IntoIter = slice::Iter<'s, T>;

    #[inline]
    fn into_iter(self) -> Self::IntoIter {
        self.iter()
    }
}
