// Erased from crates/octets/src/memory.rt by tools/erase.
//! The only functions of this crate that call the allocator.
use rattle_std::{self as std, prelude::*};

use std::alloc::{AllocError, Global};

/// The right to ask the allocator for memory once.
///
/// It can be neither copied nor let go, and its field is private. So a function that is passed one,
/// and no allocator, asks exactly once.
pub(crate) struct Request {
    alloc: Global,
}

impl Request {
    /// Returns the right to ask this allocator once.
    #[inline(always)]
    pub(crate) fn to(alloc: Global) -> Request {
        Request { alloc }
    }

    /// Returns an empty `Vec` with this capacity, or an error if there is no memory for it. A
    /// capacity of 0 needs none.
    #[inline(always)]
    pub(crate) fn reserve(self, len: usize) -> Result<Vec<u8>, AllocError> {
        let Request { alloc } = self;
        Vec::with_capacity(alloc, len)
    }
}
