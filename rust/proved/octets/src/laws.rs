// Erased from crates/octets/src/laws.rt by tools/erase.
//! Laws of numbers, varints, pieces, writes and results. The contract of each function states a
//! law. All functions except `answers_are_equal` do nothing.
use rattle_std::{self as std, prelude::*};

use crate::cursor::buffer::Buffer;
use crate::error::Result;

/// Writing the lowest n bytes of a number in network order and reading them gives the number modulo
/// 256 to the power n. Reading n bytes as a number and writing its lowest n bytes gives the same
/// bytes.
///
/// ```
/// # use octets_verified::*;
/// laws::number_read_back();
/// let mut bytes = [0, 0];
/// OctetsMut::with_slice(&mut bytes).write_u16(0x0102)?;
/// assert_eq!(Octets::with_slice(&bytes).get_u16()?, 0x0102);
/// # Ok::<(), Box<dyn core::error::Error>>(())
/// ```
#[inline]
pub fn number_read_back() {}

/// A list of bytes begins with at most one varint: it determines the width and the value.
///
/// ```
/// # use octets_verified::*;
/// laws::varint_once();
/// let mut cursor = Octets::with_slice(&[0x40, 0x25, 0x25]);
/// assert_eq!(cursor.get_varint()?, 37);
/// assert_eq!(cursor.off(), 2);
/// # Ok::<(), Box<dyn core::error::Error>>(())
/// ```
#[inline]
pub fn varint_once() {}

/// Each value has exactly one varint in each width that holds it (RFC 9000, section 16).
///
/// ```
/// # use octets_verified::*;
/// laws::varint_in_width();
/// let mut bytes = [0, 0];
/// OctetsMut::with_slice(&mut bytes).write_varint_with_len(37, 2)?;
/// assert_eq!(bytes, [0x40, 0x25]);
/// # Ok::<(), Box<dyn core::error::Error>>(())
/// ```
#[inline]
pub fn varint_in_width() {}

/// The width that `varint_len` returns is the least one: a varint of that width holds the value,
/// and none of a smaller width does.
///
/// ```
/// # use octets_verified::*;
/// laws::varint_least_width();
/// assert_eq!(varint_len(64), 2);
/// assert!(varint_fits(64, 2));
/// assert!(!varint_fits(64, 1));
/// ```
#[inline]
pub fn varint_least_width() {}

/// What an encode that fails has written is the greatest prefix of its pieces that fits.
///
/// ```
/// # use octets_verified::*;
/// laws::kept_is_greatest();
/// let mut bytes = [0, 0, 0, 0, 0, 0, 0];
/// let mut cursor = OctetsMut::with_slice(&mut bytes);
/// assert!(cursor.put_huffman_encoded::<false>(b"aaaaaaaaaaaa").is_err());
/// assert_eq!(cursor.off(), 7);
/// ```
#[inline]
pub fn kept_is_greatest() {}

/// The definition `Writes`, which the contract of each write of a cursor uses, says exactly this:
/// the bytes overwrite those at the offset, in the same buffer, and the offset moves past them.
///
/// ```
/// # use octets_verified::*;
/// laws::write_is_splice::<&mut [u8]>();
/// let mut bytes = [9, 9, 9];
/// let mut cursor = OctetsMut::with_slice(&mut bytes);
/// cursor.write_u16(0x0102)?;
/// assert_eq!(cursor.buf(), [1, 2, 9]);
/// # Ok::<(), Box<dyn core::error::Error>>(())
/// ```
#[inline]
pub fn write_is_splice<B: Buffer>() {}

/// Returns whether two results are equal: whether both are the same number or both are errors.
///
/// ```
/// # use octets_verified::*;
/// let read = Octets::with_slice(&[0x25]).get_varint();
/// assert!(laws::answers_are_equal(read, Ok(37)));
/// assert!(!laws::answers_are_equal(read, Err(BufferTooShortError)));
/// ```
#[inline]
pub fn answers_are_equal(left: Result<u64>, right: Result<u64>) -> bool {
    left == right
}
