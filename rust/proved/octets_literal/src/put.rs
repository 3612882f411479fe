// Erased from crates/octets_literal/src/put.rt by tools/erase.
//! The call that writes a literal to a sink.
use rattle_std::{self as std, prelude::*};

use crate::length::put_length;
use octets::{OctetsWriter, huffman_encoding_len, put_huffman_encoded};

/// Appends the string literal of `v` (RFC 7541, section 5.2) to `sink`, in lower case if
/// `LOWER_CASE` is true. The data are the Huffman encoding exactly if it is shorter than `v`, and
/// the length is the shortest one.
///
/// The call stops at the first call on the sink that fails, and what was appended before stays
/// appended. `v` must have at most 4294967295 bytes, which is [`crate::MAX_LITERAL_LEN`]. For an
/// empty value the sink gets only the length.
///
/// ```
/// # use octets_literal::*;
/// # use octets::*;
/// let mut bytes = [0, 0, 0, 0];
/// let mut cursor = OctetsMut::with_slice(&mut bytes);
/// put_string::<true, OctetsMut<'_>>(&mut cursor, b"AA")?;
/// assert_eq!(cursor.off(), 3);
/// # Ok::<(), Box<dyn core::error::Error>>(())
/// ```
///
/// # Requires
///
/// - `length v.now ≤ 4294967295`
#[inline]
#[cfg_attr(feature = "checked", track_caller)]
pub fn put_string<const LOWER_CASE: bool, W: OctetsWriter>(
    sink: &mut W,
    v: &[u8],
) -> Result<(), W::Error> {
    #[cfg(feature = "checked")]
    ::core::assert!((v.len() as u128) <= 4294967295u128, "`put_string` requires `length v.now ≤ 4294967295`");
    put_parts::<LOWER_CASE, W>(sink, v)
}

/// Appends the length of the data and then the data to `sink`. The data are the Huffman encoding of
/// `v` exactly if it is shorter than `v`. The clauses of `put_string` follow from this one.
///
/// # Requires
///
/// - `length v.now ≤ 4294967295`
#[inline]
fn put_parts<const LOWER_CASE: bool, W: OctetsWriter>(
    sink: &mut W,
    v: &[u8],
) -> Result<(), W::Error> {
    match shorter_text_len::<LOWER_CASE>(v) {
        Some(len) => {
            put_length(sink, true, len)?;
            put_huffman_encoded::<LOWER_CASE, W>(sink, v)
        }
        None => {
            put_length(sink, false, v.len())?;
            put_plain(sink, v, LOWER_CASE)
        }
    }
}

/// Returns the length of the Huffman encoding of `v`, if the encoding is shorter than `v`.
#[inline]
pub(crate) fn shorter_text_len<const LOWER_CASE: bool>(v: &[u8]) -> Option<usize> {
    match huffman_encoding_len::<LOWER_CASE>(v) {
        Ok(len) if len < v.len() => Some(len),
        _ => None,
    }
}

/// Appends the bytes of `v` to the sink, in lower case if `to_lower` is true. An empty `v` makes no
/// call.
#[inline]
fn put_plain<W: OctetsWriter>(sink: &mut W, v: &[u8], to_lower: bool) -> Result<(), W::Error> {
    if v.is_empty() {
        return Ok(());
    }
    if !to_lower {
        return sink.put_bytes(v);
    }
    for byte in v {
        sink.put_bytes(&[byte.to_ascii_lowercase()])?;
    }
    Ok(())
}
