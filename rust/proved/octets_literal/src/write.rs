// Erased from crates/octets_literal/src/write.rt by tools/erase.
//! The call that writes a literal into a cursor's buffer.
use rattle_std::{self as std, prelude::*};

use crate::length::put_length;
use crate::put::shorter_text_len;
use octets::{BufferTooShortError, OctetsMut, Result};

/// Writes the string literal of `v` (RFC 7541, section 5.2), in lower case if `LOWER_CASE` is true,
/// and moves the offset past it. It is the same literal that `put_string` appends.
///
/// The call fails if fewer bytes remain than the literal has, and then writes nothing. `v` must
/// have at most 4294967295 bytes, which is [`crate::MAX_LITERAL_LEN`].
///
/// ```
/// # use octets_literal::*;
/// # use octets::*;
/// let mut bytes = [0, 0, 0, 0];
/// let mut cursor = OctetsMut::with_slice(&mut bytes);
/// write_string::<false>(&mut cursor, b"aa")?;
/// assert_eq!(cursor.buf(), [2, 97, 97, 0]);
/// # Ok::<(), Box<dyn core::error::Error>>(())
/// ```
///
/// # Requires
///
/// - `length v.now ≤ 4294967295`
#[inline]
#[cfg_attr(feature = "checked", track_caller)]
pub fn write_string<const LOWER_CASE: bool>(cursor: &mut OctetsMut<'_>, v: &[u8]) -> Result<()> {
    #[cfg(feature = "checked")]
    ::core::assert!((v.len() as u128) <= 4294967295u128, "`write_string` requires `length v.now ≤ 4294967295`");
    write_parts::<LOWER_CASE>(cursor, v)
}

/// Writes the length of the data and then the data, which are the Huffman encoding of `v` exactly
/// if it is shorter than `v`. The clauses of `write_string` follow from these.
///
/// # Requires
///
/// - `length v.now ≤ 4294967295`
#[inline]
fn write_parts<const LOWER_CASE: bool>(cursor: &mut OctetsMut<'_>, v: &[u8]) -> Result<()> {
    match shorter_text_len::<LOWER_CASE>(v) {
        Some(len) => {
            write_length(cursor, true, len)?;
            cursor.put_huffman_encoded::<LOWER_CASE>(v)
        }
        None => {
            write_length(cursor, false, v.len())?;
            write_plain(cursor, v, LOWER_CASE);
            Ok(())
        }
    }
}

/// Writes the shortest length of `len` data bytes, with the flag, if the data fit after it. If
/// there are no data, `put_bytes` alone decides whether the length fits.
///
/// # Requires
///
/// - `len ≤ 4294967295`
#[inline]
fn write_length(cursor: &mut OctetsMut<'_>, huffman: bool, len: usize) -> Result<()> {
    let mut six = [0; 6];
    let mut front = OctetsMut::with_slice(&mut six);
    put_length(&mut front, huffman, len)?;
    let length = &front.buf()[..front.off()];
    if cursor.cap().saturating_sub(length.len()) < len {
        return Err(BufferTooShortError);
    }
    cursor.put_bytes(length)
}

/// Writes the bytes of `v`, in lower case if `to_lower` is true.
///
/// # Requires
///
/// - `length v.now ≤ length (rest cursor.old)`
#[inline]
fn write_plain(cursor: &mut OctetsMut<'_>, v: &[u8], to_lower: bool) {
    copy_cased(cursor.lend(v.len()), v, to_lower);
}

/// Copies the bytes of `v` into `out`, in lower case if `to_lower` is true.
///
/// # Requires
///
/// - `length out.old ≡ length v.now`
#[inline]
fn copy_cased(out: &mut [u8], v: &[u8], to_lower: bool) {
    out.copy_from_slice(v);
    if to_lower {
        out.make_ascii_lowercase();
    }
}
