// Erased from crates/octets_literal/src/memory.rt by tools/erase.
//! The only function of this crate that calls the allocator; the others call those of `octets`.
use rattle_std::{self as std, prelude::*};

use std::alloc::AllocError;

/// Appends a value to a list, or leaves the list unchanged if there is no memory for it.
#[inline]
pub(crate) fn append(list: &mut Vec<Vec<u8>>, value: Vec<u8>) -> Result<(), AllocError> {
    Ok(list.push(value)?)
}
