// Erased from crates/octets/src/number.rt by tools/erase.
//! Numbers in network order, which is most significant byte first.
use rattle_std::{self as std, prelude::*};

use crate::error::{BufferTooShortError, Result};

/// Returns the `N` bytes from the position `from` on.
///
/// # Requires
///
/// - `from ≤ length bytes.now`
/// - `N ≤ 8`
#[inline(always)]
fn chunk<const N: usize>(bytes: &[u8], from: usize) -> Result<&[u8; N]> {
    // `from` is never past the end, but rustc can't know that: an index would panic there.
    match bytes.get(from..from + N) {
        Some(part) => match part.first_chunk::<N>() {
            Some(found) => Ok(found),
            None => Err(BufferTooShortError),
        },
        None => Err(BufferTooShortError),
    }
}

/// Returns the byte at the position `from`.
///
/// # Requires
///
/// - `from ≤ length bytes.now`
#[inline(always)]
pub(crate) fn read_u8(bytes: &[u8], from: usize) -> Result<u8> {
    match bytes.get(from) {
        Some(byte) => Ok(*byte),
        None => Err(BufferTooShortError),
    }
}

/// Returns the two bytes from the position `from` on as a big-endian number.
///
/// # Requires
///
/// - `from ≤ length bytes.now`
#[inline(always)]
pub(crate) fn read_u16(bytes: &[u8], from: usize) -> Result<u16> {
    Ok(u16::from_be_bytes(*chunk(bytes, from)?))
}

/// Returns the three bytes from the position `from` on as a big-endian number.
///
/// # Requires
///
/// - `from ≤ length bytes.now`
#[inline(always)]
pub(crate) fn read_u24(bytes: &[u8], from: usize) -> Result<u32> {
    let [a, b, c] = *chunk::<3>(bytes, from)?;
    Ok(u32::from_be_bytes([0, a, b, c]))
}

/// Returns the four bytes from the position `from` on as a big-endian number.
///
/// # Requires
///
/// - `from ≤ length bytes.now`
#[inline(always)]
pub(crate) fn read_u32(bytes: &[u8], from: usize) -> Result<u32> {
    Ok(u32::from_be_bytes(*chunk(bytes, from)?))
}

/// Returns the eight bytes from the position `from` on as a big-endian number.
///
/// # Requires
///
/// - `from ≤ length bytes.now`
#[inline(always)]
pub(crate) fn read_u64(bytes: &[u8], from: usize) -> Result<u64> {
    Ok(u64::from_be_bytes(*chunk(bytes, from)?))
}
