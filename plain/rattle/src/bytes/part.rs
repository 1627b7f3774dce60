//! A part of memory that a block or a `Vec` keeps.

use super::pointer::Pointer;
use core::slice;

/// Bytes that are initialized, and that are kept and not written while this is used. Whoever makes one sees to that, and so
/// to what it is moved by staying within the memory.
#[derive(Clone, Copy)]
pub(super) struct Part {
    pub at: Pointer<*mut u8>,
    pub len: usize,
}

impl Part {
    pub const fn of_static(bytes: &'static [u8]) -> Self {
        Part { at: Pointer(bytes.as_ptr().cast_mut()), len: bytes.len() }
    }

    #[inline(always)]
    pub fn bytes(&self) -> &[u8] {
        // SAFETY: whoever made the part sees to it that these bytes are initialized, kept, and not written.
        unsafe { slice::from_raw_parts(self.at.0, self.len) }
    }

    /// Leaves out the first bytes, of which there are as many.
    #[inline(always)]
    pub fn advance(&mut self, count: usize) {
        assert!(count <= self.len);
        self.at.0 = self.at.0.wrapping_add(count);
        self.len -= count;
    }
}
