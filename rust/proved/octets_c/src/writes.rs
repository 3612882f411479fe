// Erased from crates/octets_c/src/writes.rt by tools/erase.
//! Writes into the caller's buffer.
use rattle_std::{self as std, prelude::*};

use crate::cursors::write_at;
use crate::status::{DONE, LONG, SHORT, UNFIT};
use octets::{BufferTooShortError, MAX_VAR_INT, OctetsMut, Result, varint_fits, varint_len};

/// Copies all bytes of value to the buffer.
///
/// Returns OCTETS_SHORT if and only if fewer than value_len bytes remain, otherwise OCTETS_DONE.
#[inline]
pub fn octets_put_bytes(bytes: &mut [u8], off: &mut usize, value: &[u8]) -> u8 {
    write_at!(bytes, off, cursor => cursor.put_bytes(value))
}

/// Write value as 1, 2, 3, 4 or 8 bytes, the most significant byte first. octets_put_u24 writes the
/// low 24 bits of value.
///
/// Returns OCTETS_SHORT if and only if fewer bytes remain than are to be written, otherwise
/// OCTETS_DONE.
#[inline]
pub fn octets_put_u8(bytes: &mut [u8], off: &mut usize, value: u8) -> u8 {
    write_at!(bytes, off, cursor => cursor.write_u8(value))
}

/// As octets_put_u8.
#[inline]
pub fn octets_put_u16(bytes: &mut [u8], off: &mut usize, value: u16) -> u8 {
    write_at!(bytes, off, cursor => cursor.write_u16(value))
}

/// As octets_put_u8.
#[inline]
pub fn octets_put_u24(bytes: &mut [u8], off: &mut usize, value: u32) -> u8 {
    // The cursor makes the same test. Only with this additional one does the compiler vectorize a
    // loop over this call.
    if bytes.len() < 3 || bytes.len() - 3 < *off {
        return SHORT;
    }
    write_at!(bytes, off, cursor => cursor.write_u24(value))
}

/// As octets_put_u8.
#[inline]
pub fn octets_put_u32(bytes: &mut [u8], off: &mut usize, value: u32) -> u8 {
    write_at!(bytes, off, cursor => cursor.write_u32(value))
}

/// As octets_put_u8.
#[inline]
pub fn octets_put_u64(bytes: &mut [u8], off: &mut usize, value: u64) -> u8 {
    write_at!(bytes, off, cursor => cursor.write_u64(value))
}

/// Writes value as a varint of the smallest width that holds it.
///
/// Returns OCTETS_UNFIT if value is above OCTETS_VARINT_MAX; otherwise OCTETS_SHORT if fewer bytes
/// remain than the varint has; otherwise OCTETS_DONE.
#[inline]
pub fn octets_put_varint(bytes: &mut [u8], off: &mut usize, value: u64) -> u8 {
    if value > MAX_VAR_INT {
        return UNFIT;
    }
    write_at!(bytes, off, cursor => cursor.write_varint(value))
}

/// Writes value as a varint of width bytes.
///
/// Returns OCTETS_UNFIT if width isn't 1, 2, 4 or 8, or if value isn't below 2^(8 * width - 2);
/// otherwise OCTETS_SHORT if fewer than width bytes remain; otherwise OCTETS_DONE.
#[inline]
pub fn octets_put_varint_with_len(
    bytes: &mut [u8],
    off: &mut usize,
    value: u64,
    width: usize,
) -> u8 {
    if !varint_fits(value, width) {
        return UNFIT;
    }
    write_at!(bytes, off, cursor => cursor.write_varint_with_len(value, width))
}

/// Writes the length of `value` at the cursor, as a varint of the least width, and then `value`.
///
/// # Requires
///
/// - `length value.now < 2 ^ 62`
#[inline]
fn put_parts(cursor: &mut OctetsMut<'_>, value: &[u8]) -> Result<()> {
    let len = value.len() as u64;
    // Both parts are measured first, so that a call that fails doesn't leave the length alone.
    if cursor.cap() < varint_len(len) + value.len() {
        return Err(BufferTooShortError);
    }
    cursor.write_varint(len)?;
    cursor.put_bytes(value)
}

/// Does what `put_parts` does, and says so of all bytes of the buffer.
///
/// # Requires
///
/// - `length value.now < 2 ^ 62`
#[inline]
fn put_prefixed(cursor: &mut OctetsMut<'_>, value: &[u8]) -> Result<()> {
    put_parts(cursor, value)
}

/// Writes value_len as a varint of the smallest width that holds it, and then all bytes of value.
///
/// Returns OCTETS_LONG if value_len is above OCTETS_VARINT_MAX; otherwise OCTETS_SHORT if fewer bytes
/// remain than the varint and value have together; otherwise OCTETS_DONE.
#[inline]
pub fn octets_put_bytes_with_varint_length(
    bytes: &mut [u8],
    off: &mut usize,
    value: &[u8],
) -> u8 {
    if value.len() as u64 > MAX_VAR_INT {
        return LONG;
    }
    write_at!(bytes, off, cursor => put_prefixed(&mut cursor, value))
}
