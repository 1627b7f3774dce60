//! `BytesMut`, which is added to.

use super::block::Block;
use super::part::Part;
use super::pointer::Pointer;
use super::Bytes;
use crate::alloc::{AllocError, AllocFailed, Global};
use core::fmt;
use rust_alloc::vec::Vec;

/// The most room that a new block has beside one that others share, however large that is.
const MOST_BESIDE: usize = 64 * 1024;

/// The least room of a block.
const LEAST: usize = 8;

/// Bytes of one owner, with room for more behind them.
pub struct BytesMut {
    // With the room behind it, this is memory that no one else reads or writes.
    part: Part,
    room: usize,
    memory: Memory,
}

/// What keeps the memory.
enum Memory {
    /// Memory that was never shared. As a `Vec` it is empty.
    Own(Vec<u8>),
    /// A block of which others may share what is in front.
    Shared(Block),
}

impl BytesMut {
    /// No bytes. It asks for no memory.
    #[inline(always)]
    pub const fn new(_: Global) -> Self {
        BytesMut { part: Part::of_static(&[]), room: 0, memory: Memory::Own(Vec::new()) }
    }

    /// No bytes, with room for so many.
    pub fn with_capacity(_: Global, room: usize) -> Result<Self, AllocError> {
        let mut own = Vec::new();
        own.try_reserve_exact(room).map_err(|_| AllocError)?;
        let part = Part { at: Pointer(own.as_mut_ptr()), len: 0 };
        Ok(BytesMut { part, room: own.capacity(), memory: Memory::Own(own) })
    }

    // Bytes of a block that no one else shares, with what is behind them.
    pub(super) fn of_block(part: Part, block: Block) -> Self {
        let (base, size) = block.place();
        BytesMut { part, room: base + size - part.at.0.addr(), memory: Memory::Shared(block) }
    }

    /// How many bytes there are.
    #[inline(always)]
    pub fn len(&self) -> usize {
        self.part.len
    }

    /// Whether there are none.
    #[inline(always)]
    pub fn is_empty(&self) -> bool {
        self.part.len == 0
    }

    /// How many bytes it holds without asking for memory.
    #[inline(always)]
    pub fn capacity(&self) -> usize {
        self.room
    }

    /// The bytes.
    #[inline(always)]
    pub fn as_slice(&self) -> &[u8] {
        self.part.bytes()
    }

    /// Takes out all.
    #[inline(always)]
    pub fn clear(&mut self) {
        self.part.len = 0;
    }

    /// Leaves out the first bytes.
    #[inline(always)]
    pub fn advance(&mut self, count: usize) {
        self.part.advance(count);
        self.room -= count;
    }

    /// Makes room for so many bytes more.
    #[inline(always)]
    pub fn reserve(&mut self, more: usize) -> Result<(), AllocError> {
        if more <= self.room - self.part.len {
            return Ok(());
        }
        self.grow(more)
    }

    /// Adds bytes.
    #[inline]
    pub fn extend_from_slice(&mut self, bytes: &[u8]) -> Result<(), AllocError> {
        self.reserve(bytes.len())?;
        self.extend_reserved(bytes);
        Ok(())
    }

    /// Adds bytes for which there is room, which is tested.
    #[inline(always)]
    pub fn extend_reserved(&mut self, bytes: &[u8]) {
        assert!(bytes.len() <= self.room - self.part.len);
        let to = self.part.at.0.wrapping_add(self.part.len);
        // SAFETY: there is that much room, which is this one's alone, so `bytes` is elsewhere.
        unsafe { to.copy_from_nonoverlapping(bytes.as_ptr(), bytes.len()) };
        self.part.len += bytes.len();
    }

    // The memory where no one has another part of it: where it begins, and its size.
    fn whole(&self) -> Option<(usize, usize)> {
        match &self.memory {
            Memory::Own(own) => (own.capacity() > 0).then(|| (own.as_ptr().addr(), own.capacity())),
            Memory::Shared(block) => block.is_unique().then(|| block.place()),
        }
    }

    // Makes room: in front, where that frees at least what it copies; in what is behind; or in new memory.
    #[cold]
    #[inline(never)]
    fn grow(&mut self, more: usize) -> Result<(), AllocError> {
        let len = self.part.len;
        let needed = len.checked_add(more).ok_or(AllocError)?;
        let usual = match self.whole() {
            Some((base, size)) => {
                let before = self.part.at.0.addr() - base;
                if len <= before && needed <= size {
                    let to = self.part.at.0.with_addr(base);
                    // SAFETY: the whole memory is this one's, and the bytes begin behind as many.
                    unsafe { to.copy_from_nonoverlapping(self.part.at.0, len) };
                    self.part.at.0 = to;
                    self.room = size;
                    return Ok(());
                }
                if needed <= size - before {
                    self.room = size - before;
                    return Ok(());
                }
                size.saturating_mul(2)
            }
            None => len + self.size().min(MOST_BESIDE),
        };
        let mut grown = BytesMut::with_capacity(Global, needed.max(usual).max(LEAST))?;
        grown.extend_reserved(self.as_slice());
        *self = grown;
        Ok(())
    }

    // The size of all memory that it keeps.
    fn size(&self) -> usize {
        match &self.memory {
            Memory::Own(own) => own.capacity(),
            Memory::Shared(block) => block.place().1,
        }
    }

    /// Takes out the first bytes, which share the block with what stays.
    pub fn freeze_to(&mut self, at: usize) -> Result<Bytes, AllocError> {
        assert!(at <= self.len());
        if at == 0 {
            return Ok(Bytes::new());
        }
        let block = self.share()?;
        let front = Bytes { part: Part { len: at, ..self.part }, block: Some(block) };
        self.advance(at);
        Ok(front)
    }

    /// The bytes, to be shared.
    pub fn freeze(mut self) -> Result<Bytes, AllocFailed<BytesMut>> {
        let len = self.len();
        self.freeze_to(len).map_err(|_| AllocFailed { value: self })
    }

    // A share of the block, which its own memory becomes.
    fn share(&mut self) -> Result<Block, AllocError> {
        if let Memory::Own(own) = &mut self.memory {
            match Block::new(core::mem::take(own)) {
                Ok(block) => self.memory = Memory::Shared(block),
                Err(memory) => {
                    *own = memory;
                    return Err(AllocError);
                }
            }
        }
        match &self.memory {
            Memory::Shared(block) => block.share(),
            Memory::Own(_) => Err(AllocError),
        }
    }
}

impl fmt::Debug for BytesMut {
    fn fmt(&self, f: &mut fmt::Formatter<'_>) -> fmt::Result {
        self.as_slice().fmt(f)
    }
}
