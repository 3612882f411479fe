// Erased from crates/octets_c/src/runs.rt by tools/erase.
//! Reads of runs of bytes, which aren't copied.
use rattle_std::{self as std, prelude::*};

use crate::cursors::at;
use crate::status::{DONE, SHORT};
use octets::{Octets, Result};

/// Where a run of bytes is in its buffer.
#[derive(Clone, Copy)]
#[repr(C)]
pub struct Run {
    /// The offset of its first byte.
    pub from: usize,
    /// Its number of bytes.
    pub len: usize,
}

/// Moves the offset past len bytes.
///
/// Returns OCTETS_SHORT if and only if fewer than len bytes remain, otherwise OCTETS_DONE.
///
/// If size_t has 32 bits, C cuts a len of 64 bits to its low 32 bits without a warning. To skip as
/// many bytes as a varint says, call octets_get_bytes_u64.
#[inline]
pub fn octets_skip(bytes: &[u8], off: &mut usize, len: usize) -> u8 {
    let Ok(mut cursor) = at(bytes, *off) else {
        return SHORT;
    };
    if cursor.skip(len).is_err() {
        return SHORT;
    }
    *off = cursor.off();
    DONE
}

/// Sets *run to the next len bytes, and moves the offset past them. It copies no byte.
///
/// Returns OCTETS_SHORT if and only if fewer than len bytes remain, otherwise OCTETS_DONE.
///
/// If size_t has 32 bits, C cuts a len of 64 bits to its low 32 bits without a warning: a length of
/// 2^32 + 5 becomes 5. For a length that was read as a varint, call octets_get_bytes_u64.
#[inline]
pub fn octets_get_bytes(bytes: &[u8], off: &mut usize, len: usize, run: &mut Run) -> u8 {
    let from = *off;
    if octets_skip(bytes, off, len) != DONE {
        return SHORT;
    }
    *run = Run { from, len };
    DONE
}

/// Does what octets_get_bytes does, with a len of 64 bits.
#[inline]
pub fn octets_get_bytes_u64(bytes: &[u8], off: &mut usize, len: u64, run: &mut Run) -> u8 {
    if len > bytes.len() as u64 {
        return SHORT;
    }
    octets_get_bytes(bytes, off, len as usize, run)
}

/// Stores in `run` where the bytes of the view are, which end at `end`. It fails if there is no
/// view, and then changes nothing.
///
/// # Requires
///
/// - `IfOk view (λ v. length (bytes v) ≤ end)`
#[inline]
fn tell(view: Result<Octets<'_>>, end: usize, run: &mut Run) -> u8 {
    let Ok(view) = view else {
        return SHORT;
    };
    let len = view.len();
    *run = Run {
        from: end - len,
        len,
    };
    DONE
}

/// Read a length, set *run to that many bytes after the length, and move the offset past these
/// bytes. The length is an integer of one or two bytes (the most significant first), or a varint of
/// any width. They copy no byte.
///
/// Returns OCTETS_SHORT if and only if the length is incomplete or fewer bytes follow than it says,
/// otherwise OCTETS_DONE.
///
/// On error: the offset is after the length if the length is complete, and unchanged if it isn't;
/// *run is unchanged. To try again with more bytes, assign to the offset what it was before the
/// call.
#[inline]
pub fn octets_get_bytes_with_u8_length(
    bytes: &[u8],
    off: &mut usize,
    run: &mut Run,
) -> u8 {
    let Ok(mut cursor) = at(bytes, *off) else {
        return SHORT;
    };
    let answer = cursor.get_bytes_with_u8_length();
    *off = cursor.off();
    tell(answer, *off, run)
}

/// As octets_get_bytes_with_u8_length.
#[inline]
pub fn octets_get_bytes_with_u16_length(
    bytes: &[u8],
    off: &mut usize,
    run: &mut Run,
) -> u8 {
    let Ok(mut cursor) = at(bytes, *off) else {
        return SHORT;
    };
    let answer = cursor.get_bytes_with_u16_length();
    *off = cursor.off();
    tell(answer, *off, run)
}

/// As octets_get_bytes_with_u8_length.
#[inline]
pub fn octets_get_bytes_with_varint_length(
    bytes: &[u8],
    off: &mut usize,
    run: &mut Run,
) -> u8 {
    let Ok(mut cursor) = at(bytes, *off) else {
        return SHORT;
    };
    let answer = cursor.get_bytes_with_varint_length();
    *off = cursor.off();
    tell(answer, *off, run)
}
