//! A block of memory that several share.

use super::pointer::Pointer;
use crate::alloc::AllocError;
use core::ptr::{slice_from_raw_parts_mut, NonNull};
use core::sync::atomic::{fence, AtomicUsize, Ordering};
use rust_alloc::boxed::Box;
use rust_alloc::vec::Vec;

/// The memory, and how many share it.
struct Counted {
    owners: AtomicUsize,
    memory: Vec<u8>,
    base: usize,
}

/// One share of a block. The memory is freed with the last.
pub(super) struct Block(Pointer<NonNull<Counted>>);

/// More owners than this are refused, as `Arc` does, long before the count overflows.
const MOST_OWNERS: usize = isize::MAX as usize;

impl Block {
    /// Takes over memory, or gives it back where there is none for the count.
    pub fn new(mut memory: Vec<u8>) -> Result<Self, Vec<u8>> {
        let mut place = Vec::new();
        if place.try_reserve_exact(1).is_err() {
            return Err(memory);
        }
        let base = memory.as_mut_ptr().addr();
        place.push(Counted { owners: AtomicUsize::new(1), memory, base });
        let counted: &mut [Counted] = Box::leak(place.into_boxed_slice());
        Ok(Block(Pointer(NonNull::from(&mut counted[0]))))
    }

    #[inline(always)]
    fn counted(&self) -> &Counted {
        // SAFETY: it was leaked in `new`, and is freed with the last share of it.
        unsafe { self.0 .0.as_ref() }
    }

    /// One share more.
    #[inline(always)]
    pub fn share(&self) -> Result<Self, AllocError> {
        if self.counted().owners.fetch_add(1, Ordering::Relaxed) > MOST_OWNERS {
            self.counted().owners.fetch_sub(1, Ordering::Relaxed);
            return Err(AllocError);
        }
        Ok(Block(self.0))
    }

    /// Whether no one else has a share.
    pub fn is_unique(&self) -> bool {
        self.counted().owners.load(Ordering::Acquire) == 1
    }

    /// Where the memory begins, and its size.
    pub fn place(&self) -> (usize, usize) {
        (self.counted().base, self.counted().memory.capacity())
    }
}

impl Drop for Block {
    #[inline]
    fn drop(&mut self) {
        if self.counted().owners.fetch_sub(1, Ordering::Release) != 1 {
            return;
        }
        fence(Ordering::Acquire);
        let counted = slice_from_raw_parts_mut(self.0 .0.as_ptr(), 1);
        // SAFETY: `new` leaked a box of one, and this was its last share.
        drop(unsafe { Box::from_raw(counted) });
    }
}
