// Erased from crates/octets/src/huffman/decode.rt by tools/erase.
//! The decoder. It reads codes from a window, a word with the next 64 bits of the input. If a
//! window has no complete code, it reads 4 bits at a time.
use rattle_std::{self as std, prelude::*};

pub(crate) mod fault;
mod group;
pub(crate) mod reading;
mod short;
pub(crate) mod store;
mod window;
mod window_loop;

use crate::memory::Request;
use std::alloc::AllocError;

/// Reserves capacity for the value of an encoding of `len` bytes within the limit: two bytes for
/// each byte, since a code has more than four bits.
#[inline]
pub(crate) fn reserve(request: Request, len: usize, max_len: usize) -> Result<Vec<u8>, AllocError> {
    request.reserve(len.saturating_mul(2).min(max_len))
}
