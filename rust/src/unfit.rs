//! Hand-written code for a number that no varint holds, and for a width that no varint has. It does what `octets` 0.3.7
//! does. The verified functions are never called with such a number or width.
use octets_verified::{BufferTooShortError, MAX_VAR_INT, Result};

/// Returns `v` if a varint holds it, and panics if none does.
#[inline]
pub(crate) const fn held(v: u64) -> u64 {
    if v > MAX_VAR_INT {
        unreachable!()
    }
    v
}

/// Fails if fewer than `len` bytes remain, and otherwise panics, for a `len` that isn't the width of a varint.
#[cold]
pub(crate) fn refuse_width(len: usize, remaining: usize) -> Result<()> {
    if remaining < len {
        return Err(BufferTooShortError);
    }
    panic!("value is too large for varint")
}
