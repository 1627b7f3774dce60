//! A pointer that threads share.

/// A pointer to what any thread may read, and only its one owner changes or frees. Its holders see to that.
#[derive(Clone, Copy)]
pub(super) struct Pointer<P>(pub P);

// SAFETY: what it points to is read alone while there may be several of it.
unsafe impl<P> Send for Pointer<P> {}

// SAFETY: as above.
unsafe impl<P> Sync for Pointer<P> {}
