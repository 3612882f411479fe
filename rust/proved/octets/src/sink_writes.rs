// Erased from crates/octets/src/sink_writes.rt by tools/erase.
//! Numbers, varints and byte strings for any sink.
//!
//! Each number is one call of the sink's `put_bytes`, so a sink that is whole takes all bytes of a
//! number, or none of them.
use rattle_std::{self as std, prelude::*};

use crate::writer::OctetsWriter;

/// Appends `v` to `sink` as one byte.
///
/// It makes one call of the sink, and returns the error of this call.
///
/// ```
/// # use octets_verified::*;
/// let mut bytes = [0, 0];
/// let mut sink = OctetsMut::with_slice(&mut bytes);
/// write_u8(&mut sink, 7)?;
/// assert_eq!(sink.buf(), [7, 0]);
/// # Ok::<(), Box<dyn core::error::Error>>(())
/// ```
#[inline(always)]
pub fn write_u8<W: OctetsWriter>(sink: &mut W, v: u8) -> Result<(), W::Error> {
    sink.put_bytes(&[v])
}

/// Appends `v` to `sink` as two bytes in network order.
///
/// It makes one call of the sink, and returns the error of this call.
///
/// ```
/// # use octets_verified::*;
/// let mut bytes = [0, 0, 0];
/// let mut sink = OctetsMut::with_slice(&mut bytes);
/// write_u16(&mut sink, 0x0102)?;
/// assert_eq!(sink.buf(), [1, 2, 0]);
/// # Ok::<(), Box<dyn core::error::Error>>(())
/// ```
#[inline(always)]
pub fn write_u16<W: OctetsWriter>(sink: &mut W, v: u16) -> Result<(), W::Error> {
    sink.put_bytes(&v.to_be_bytes())
}

/// Appends the lowest three bytes of `v` to `sink`, in network order.
///
/// It makes one call of the sink, and returns the error of this call.
///
/// ```
/// # use octets_verified::*;
/// let mut bytes = [0, 0, 0];
/// let mut sink = OctetsMut::with_slice(&mut bytes);
/// write_u24(&mut sink, 0x09010203)?;
/// assert_eq!(sink.buf(), [1, 2, 3]);
/// # Ok::<(), Box<dyn core::error::Error>>(())
/// ```
#[inline(always)]
pub fn write_u24<W: OctetsWriter>(sink: &mut W, v: u32) -> Result<(), W::Error> {
    sink.put_bytes(&v.to_be_bytes()[1..])
}

/// Appends `v` to `sink` as four bytes in network order.
///
/// It makes one call of the sink, and returns the error of this call.
///
/// ```
/// # use octets_verified::*;
/// let mut bytes = [0, 0, 0, 0];
/// let mut sink = OctetsMut::with_slice(&mut bytes);
/// write_u32(&mut sink, 0x01020304)?;
/// assert_eq!(sink.buf(), [1, 2, 3, 4]);
/// # Ok::<(), Box<dyn core::error::Error>>(())
/// ```
#[inline(always)]
pub fn write_u32<W: OctetsWriter>(sink: &mut W, v: u32) -> Result<(), W::Error> {
    sink.put_bytes(&v.to_be_bytes())
}

/// Appends `v` to `sink` as eight bytes in network order.
///
/// It makes one call of the sink, and returns the error of this call.
///
/// ```
/// # use octets_verified::*;
/// let mut bytes = [9, 9, 9, 9, 9, 9, 9, 9];
/// let mut sink = OctetsMut::with_slice(&mut bytes);
/// write_u64(&mut sink, 0x0102)?;
/// assert_eq!(sink.buf(), [0, 0, 0, 0, 0, 0, 1, 2]);
/// # Ok::<(), Box<dyn core::error::Error>>(())
/// ```
#[inline(always)]
pub fn write_u64<W: OctetsWriter>(sink: &mut W, v: u64) -> Result<(), W::Error> {
    sink.put_bytes(&v.to_be_bytes())
}

/// Appends `v` to `sink` as a varint of `len` bytes (RFC 9000, section 16). `len` must be 1, 2, 4
/// or 8, and `v` must be below 2 to the power `8 * len - 2`. `varint_fits` checks both conditions.
///
/// It makes one call of the sink, and returns the error of this call.
///
/// ```
/// # use octets_verified::*;
/// let mut bytes = [0, 0, 0];
/// let mut sink = OctetsMut::with_slice(&mut bytes);
/// write_varint_with_len(&mut sink, 37, 2)?;
/// assert_eq!(sink.buf(), [0x40, 0x25, 0]);
/// # Ok::<(), Box<dyn core::error::Error>>(())
/// ```
///
/// # Requires
///
/// - `IsWidth len`
/// - `v < 2 ^ (8 * len - 2)`
#[inline(always)]
#[cfg_attr(feature = "checked", track_caller)]
pub fn write_varint_with_len<W: OctetsWriter>(
    sink: &mut W,
    v: u64,
    len: usize,
) -> Result<(), W::Error> {
    #[cfg(feature = "checked")]
    ::core::assert!(matches!(len, 1 | 2 | 4 | 8), "`write_varint_with_len` requires `IsWidth len`");
    #[cfg(feature = "checked")]
    ::core::assert!((v as u128) < (if let exponent @ 0..=126 = (8u128.saturating_mul((len as u128)).saturating_sub(2u128)) { 1u128 << exponent } else { u128::MAX }), "`write_varint_with_len` requires `v < 2 ^ (8 * len - 2)`");
    match len {
        1 => write_u8(sink, v as u8),
        2 => write_u16(sink, v as u16 + 0x4000),
        4 => write_u32(sink, v as u32 + 0x8000_0000),
        _ => write_u64(sink, v + 0xc000_0000_0000_0000),
    }
}

/// Appends `v` to `sink` as a varint of the least width that holds it (RFC 9000, section 16). `v`
/// must be below 2 to the power 62.
///
/// It makes one call of the sink, and returns the error of this call.
///
/// ```
/// # use octets_verified::*;
/// let mut bytes = [0, 0, 0];
/// let mut sink = OctetsMut::with_slice(&mut bytes);
/// write_varint(&mut sink, 15293)?;
/// assert_eq!(sink.buf(), [0x7b, 0xbd, 0]);
/// # Ok::<(), Box<dyn core::error::Error>>(())
/// ```
///
/// # Requires
///
/// - `v < 2 ^ 62`
#[inline(always)]
#[cfg_attr(feature = "checked", track_caller)]
pub fn write_varint<W: OctetsWriter>(sink: &mut W, v: u64) -> Result<(), W::Error> {
    #[cfg(feature = "checked")]
    ::core::assert!((v as u128) < (1u128 << 62), "`write_varint` requires `v < 2 ^ 62`");
    // Each width has a call of its own, so that the sink's call is compiled for that width.
    if v < 1 << 6 {
        write_varint_with_len(sink, v, 1)
    } else if v < 1 << 14 {
        write_varint_with_len(sink, v, 2)
    } else if v < 1 << 30 {
        write_varint_with_len(sink, v, 4)
    } else {
        write_varint_with_len(sink, v, 8)
    }
}

/// Appends to `sink` the number of bytes of `v`, as a varint of the least width that holds it
/// (RFC 9000, section 16), and then the bytes. `v` must have fewer than 2 to the power 62 bytes.
///
/// It makes one call of the sink for the length, and one for the bytes if there are any. It stops
/// at the first call that fails, and returns its error. What was appended before stays appended.
///
/// ```
/// # use octets_verified::*;
/// let mut bytes = [0, 0, 0, 0];
/// let mut sink = OctetsMut::with_slice(&mut bytes);
/// write_bytes_with_varint_length(&mut sink, b"ab")?;
/// assert_eq!(sink.buf(), [2, 97, 98, 0]);
/// # Ok::<(), Box<dyn core::error::Error>>(())
/// ```
///
/// # Requires
///
/// - `length v.now < 2 ^ 62`
#[inline]
#[cfg_attr(feature = "checked", track_caller)]
pub fn write_bytes_with_varint_length<W: OctetsWriter>(
    sink: &mut W,
    v: &[u8],
) -> Result<(), W::Error> {
    #[cfg(feature = "checked")]
    ::core::assert!((v.len() as u128) < (1u128 << 62), "`write_bytes_with_varint_length` requires `length v.now < 2 ^ 62`");
    write_varint(sink, v.len() as u64)?;
    if v.is_empty() {
        return Ok(());
    }
    sink.put_bytes(v)
}
