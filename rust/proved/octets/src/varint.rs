// Erased from crates/octets/src/varint.rt by tools/erase.
//! Variable-length integers (RFC 9000 section 16).
use rattle_std::{self as std, prelude::*};

use crate::error::{BufferTooShortError, Result, VarintError};
use crate::number::{read_u16, read_u32, read_u64};

/// The greatest value of a varint: 2 to the power 62, less one.
pub const MAX_VAR_INT: u64 = 4_611_686_018_427_387_903;

/// Returns the least width in bytes (1, 2, 4 or 8) in which a varint can have the value `v`. `v`
/// must be below 2 to the power 62, so at most [`MAX_VAR_INT`].
///
/// ```
/// # use octets_verified::*;
/// assert_eq!(varint_len(63), 1);
/// assert_eq!(varint_len(64), 2);
/// ```
///
/// # Requires
///
/// - `v < 2 ^ 62`
#[inline]
#[cfg_attr(feature = "checked", track_caller)]
pub const fn varint_len(v: u64) -> usize {
    #[cfg(feature = "checked")]
    ::core::assert!((v as u128) < (1u128 << 62), "`varint_len` requires `v < 2 ^ 62`");
    if v < 1 << 6 {
        1
    } else if v < 1 << 14 {
        2
    } else if v < 1 << 30 {
        4
    } else {
        8
    }
}

/// Returns whether a varint of `width` bytes can have the value `v`: whether the width is 1, 2, 4
/// or 8, and `v` is below 2 to the power `8 * width - 2`. `put_varint_with_len` requires this.
///
/// ```
/// # use octets_verified::*;
/// assert!(varint_fits(63, 1));
/// assert!(!varint_fits(64, 1));
/// ```
#[inline]
pub fn varint_fits(v: u64, width: usize) -> bool {
    match width {
        1 => v < 1 << 6,
        2 => v < 1 << 14,
        4 => v < 1 << 30,
        8 => v < 1 << 62,
        _ => false,
    }
}

/// Returns the number of bytes of a varint whose first byte is `first`: 1, 2, 4 or 8, as its two
/// most significant bits say.
///
/// ```
/// # use octets_verified::*;
/// assert_eq!(varint_parse_len(0x25), 1);
/// assert_eq!(varint_parse_len(0x7b), 2);
/// ```
#[inline]
pub const fn varint_parse_len(first: u8) -> usize {
    1 << (first >> 6)
}

/// Returns the byte at the position `from`. `read_u8` returns the same, but in a loop LLVM compares
/// once more where that is followed by a longer read.
///
/// # Requires
///
/// - `from ≤ length bytes.now`
#[inline(always)]
fn first_byte(bytes: &[u8], from: usize) -> Result<u8> {
    match bytes.get(..from + 1) {
        Some(front) => match front.last() {
            Some(byte) => Ok(*byte),
            None => Err(BufferTooShortError),
        },
        None => Err(BufferTooShortError),
    }
}

/// Returns the width and the value of the varint at the position `from`.
///
/// # Requires
///
/// - `from ≤ length bytes.now`
#[inline(always)]
pub(crate) fn read_varint(bytes: &[u8], from: usize) -> Result<(usize, u64)> {
    let first = first_byte(bytes, from)?;
    if first < 64 {
        return Ok((1, u64::from(first)));
    }
    // One byte is tested by itself, so that fewer branches are mispredicted if widths are mixed.
    let mark = first >> 6;
    if mark % 2 == 0 {
        Ok((4, u64::from(read_u32(bytes, from)? & 0x3fff_ffff)))
    } else if mark < 2 {
        Ok((2, u64::from(read_u16(bytes, from)? & 0x3fff)))
    } else {
        Ok((8, read_u64(bytes, from)? & MAX_VAR_INT))
    }
}

/// Returns the value of the varint at the position `from`, if the value needs its width.
///
/// # Requires
///
/// - `from ≤ length bytes.now`
#[inline]
pub(crate) fn read_varint_shortest(
    bytes: &[u8],
    from: usize,
) -> std::result::Result<u64, VarintError> {
    let Ok((width, value)) = read_varint(bytes, from) else {
        return Err(VarintError::Short);
    };
    if varint_len(value) < width {
        return Err(VarintError::Overlong);
    }
    Ok(value)
}
