// Erased from crates/octets_literal/src/length.rt by tools/erase.
//! The length of a literal: an integer with a prefix of 7 bits (RFC 7541, section 5.1), with the
//! flag H before it.
use rattle_std::{self as std, prelude::*};

use crate::error::LiteralError;
use octets::OctetsWriter;

/// The greatest number of data bytes of a literal that is read or written: 2 to the power 32, less
/// one.
pub const MAX_LITERAL_LEN: usize = 4_294_967_295;

/// What comes before the data of a literal.
#[derive(Clone, Copy)]
pub(crate) struct Length {
    /// The flag H: whether the data are Huffman-encoded.
    pub(crate) huffman: bool,
    /// How many data bytes follow, at most `MAX_LITERAL_LEN`.
    pub(crate) len: u32,
    /// How many bytes this length has.
    pub(crate) width: usize,
}

/// The groups of 7 bits after a prefix of one bits.
#[derive(Clone, Copy)]
struct Groups {
    number: u64,
    width: usize,
}

/// Returns the length with which the bytes begin.
#[inline]
pub(crate) fn read_length(bytes: &[u8]) -> Result<Length, LiteralError> {
    let Some((first, more)) = bytes.split_first() else {
        return Err(LiteralError::Short);
    };
    let huffman = *first >= 128;
    let prefix = u32::from(*first % 128);
    if prefix < 127 {
        return Ok(Length {
            huffman,
            len: prefix,
            width: 1,
        });
    }
    let groups = read_groups(more, 5)?;
    let Ok(len) = u32::try_from(groups.number + 127) else {
        return Err(LiteralError::Length);
    };
    Ok(Length {
        huffman,
        len,
        width: groups.width + 1,
    })
}

/// Returns the number whose groups the bytes begin with. There may be at most `most` groups.
///
/// # Requires
///
/// - `0 < most`
/// - `most ≤ 5`
#[inline]
fn read_groups(bytes: &[u8], most: usize) -> Result<Groups, LiteralError> {
    let Some((first, more)) = bytes.split_first() else {
        return Err(LiteralError::Short);
    };
    if *first < 128 {
        return Ok(Groups {
            number: u64::from(*first),
            width: 1,
        });
    }
    if most == 1 {
        return Err(LiteralError::Length);
    }
    let groups = read_groups(more, most - 1)?;
    Ok(Groups {
        number: u64::from(*first % 128) + 128 * groups.number,
        width: groups.width + 1,
    })
}

/// Appends the shortest length of `len` data bytes to the sink, with the flag.
///
/// # Requires
///
/// - `len ≤ 4294967295`
#[inline]
pub(crate) fn put_length<W: OctetsWriter>(
    sink: &mut W,
    huffman: bool,
    len: usize,
) -> Result<(), W::Error> {
    let bit = flag_bit(huffman);
    if len < 127 {
        return sink.put_bytes(&[bit + len as u8]);
    }
    sink.put_bytes(&[bit + 127])?;
    put_groups(sink, len - 127)
}

/// Returns the flag as bit 7 of a byte.
#[inline]
fn flag_bit(huffman: bool) -> u8 {
    if huffman { 128 } else { 0 }
}

/// Appends a number to the sink in groups of 7 bits, as few as hold it.
///
/// # Requires
///
/// - `number ≤ 4294967295`
#[inline]
fn put_groups<W: OctetsWriter>(sink: &mut W, number: usize) -> Result<(), W::Error> {
    if number < 128 {
        return sink.put_bytes(&[number as u8]);
    }
    sink.put_bytes(&[(number % 128) as u8 + 128])?;
    put_groups(sink, number / 128)
}
