// Erased from crates/octets/src/slices.rt by tools/erase.
//! A function whose contract says that the elements of a slice are bytes, and one that copies a
//! slice into a `Vec`.
use rattle_std::{self as std, prelude::*};

use crate::memory::Request;
use std::alloc::AllocError;

/// Returns its argument. A caller's proof learns from the clause `bytes` that each element is below
/// 256.
#[inline]
pub(crate) fn known_bytes(bytes: &[u8]) -> &[u8] {
    bytes
}

/// Copies the bytes into a new `Vec`. An empty slice allocates nothing, so it can't fail.
#[inline]
pub(crate) fn vec_of(request: Request, bytes: &[u8]) -> Result<Vec<u8>, AllocError> {
    let mut copy = request.reserve(bytes.len())?;
    copy.extend_from_slice(bytes)?;
    Ok(copy)
}
