//! The allocator, and what is said where it has no memory.

use core::fmt;

/// The global allocator.
#[derive(Clone, Copy, Debug, Default, PartialEq, Eq)]
pub struct Global;

/// Memory was asked for and refused.
#[derive(Clone, Copy, Debug, PartialEq, Eq)]
pub struct AllocError;

/// Memory was refused to a call that took a value, which it gives back.
#[derive(Clone, Copy, PartialEq, Eq)]
pub struct AllocFailed<T> {
    /// What the call took.
    pub value: T,
}

impl<T> From<AllocFailed<T>> for AllocError {
    #[inline(always)]
    fn from(_: AllocFailed<T>) -> Self {
        AllocError
    }
}

impl fmt::Display for AllocError {
    fn fmt(&self, f: &mut fmt::Formatter<'_>) -> fmt::Result {
        f.write_str("out of memory")
    }
}

/// Shows nothing of the value.
impl<T> fmt::Debug for AllocFailed<T> {
    fn fmt(&self, f: &mut fmt::Formatter<'_>) -> fmt::Result {
        f.debug_struct("AllocFailed").finish_non_exhaustive()
    }
}

impl<T> fmt::Display for AllocFailed<T> {
    fn fmt(&self, f: &mut fmt::Formatter<'_>) -> fmt::Result {
        AllocError.fmt(f)
    }
}

impl core::error::Error for AllocError {}
