//! Slices that C hands over, as a pointer and a length. The pointer is only looked at where the length isn't 0.

use core::fmt;
use core::hint::assert_unchecked;
use core::marker::PhantomData;
use core::slice as memory;

/// A slice in a struct in the layout of C. C fills it, or it is made of a slice.
#[repr(C)]
pub struct Slice<'a, T> {
    at: *const T,
    len: usize,
    life: PhantomData<&'a [T]>,
}

impl<'a, T> Slice<'a, T> {
    /// The slice.
    #[inline(always)]
    pub fn slice(self) -> &'a [T] {
        // SAFETY: the fields are private, so it was made of a slice or filled by C, which keeps what its header asks.
        unsafe { slice(self.at, self.len) }
    }
}

impl<'a, T> From<&'a [T]> for Slice<'a, T> {
    #[inline(always)]
    fn from(slice: &'a [T]) -> Self {
        Slice { at: slice.as_ptr(), len: slice.len(), life: PhantomData }
    }
}

impl<T> Clone for Slice<'_, T> {
    #[inline(always)]
    fn clone(&self) -> Self {
        *self
    }
}

impl<T> Copy for Slice<'_, T> {}

impl<T: PartialEq> PartialEq for Slice<'_, T> {
    fn eq(&self, other: &Self) -> bool {
        self.slice() == other.slice()
    }
}

impl<T: Eq> Eq for Slice<'_, T> {}

impl<T: fmt::Debug> fmt::Debug for Slice<'_, T> {
    fn fmt(&self, f: &mut fmt::Formatter<'_>) -> fmt::Result {
        self.slice().fmt(f)
    }
}

/// The slice of a pointer and a length.
///
/// # Safety
///
/// Where `len` isn't 0, `at` points to as many values, which last and aren't written as long as the slice is used.
#[inline(always)]
pub unsafe fn slice<'a, T>(at: *const T, len: usize) -> &'a [T] {
    match len {
        0 => &[],
        // SAFETY: the caller promises it. Where values are, no pointer is null: said here, it spares a test of an `Option`.
        _ => unsafe {
            assert_unchecked(!at.is_null());
            memory::from_raw_parts(at, len)
        },
    }
}

/// The slice of a pointer and a length, to be written.
///
/// # Safety
///
/// Where `len` isn't 0, `at` points to as many values, which last and which no one else reads or writes as long as the slice
/// is used.
#[inline(always)]
pub unsafe fn slice_mut<'a, T>(at: *mut T, len: usize) -> &'a mut [T] {
    match len {
        0 => &mut [],
        // SAFETY: the caller promises it.
        _ => unsafe { memory::from_raw_parts_mut(at, len) },
    }
}
