//! Lists that are read as a whole, and given item by item.

use fallible_iterator::FallibleIterator;
use std::marker::PhantomData;
use std::{io, vec};

/// The items of a list that was read of a body, or why it is refused.
pub struct Items<'a, T> {
    items: vec::IntoIter<T>,
    refused: Option<io::Error>,
    body: PhantomData<&'a [u8]>,
}

impl<T> Items<'_, T> {
    #[inline]
    pub(super) fn new(read: io::Result<Vec<T>>) -> Self {
        let (items, refused) = match read {
            Ok(items) => (items, None),
            Err(refused) => (Vec::new(), Some(refused)),
        };
        Items { items: items.into_iter(), refused, body: PhantomData }
    }
}

impl<T> FallibleIterator for Items<'_, T> {
    type Item = T;
    type Error = io::Error;

    #[inline]
    fn next(&mut self) -> io::Result<Option<T>> {
        match self.refused.take() {
            Some(refused) => Err(refused),
            None => Ok(self.items.next()),
        }
    }

    #[inline]
    fn size_hint(&self) -> (usize, Option<usize>) {
        self.items.size_hint()
    }
}
