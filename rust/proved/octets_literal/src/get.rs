// Erased from crates/octets_literal/src/get.rt by tools/erase.
//! The call that reads a literal into a new `Vec`.
use rattle_std::{self as std, prelude::*};

use crate::data::find_data;
use crate::error::LiteralError;
use octets::{DecodeError, Octets};
use std::alloc::Global;

/// Reads a string literal (RFC 7541, section 5.2) whose value has at most `max_len` bytes, and
/// moves the offset past it.
///
/// The length of the literal may have groups of zeros at its end, but it has at most six bytes and
/// is at most 4294967295. If the call fails, the offset is unchanged.
///
/// ```
/// # use octets_literal::*;
/// # use octets::*;
/// # let alloc = rattle_std::alloc::Global;
/// let mut cursor = Octets::with_slice(&[2, 97, 98, 7]);
/// assert_eq!(&*get_string(alloc, &mut cursor, 9)?, b"ab");
/// assert_eq!(cursor.get_u8()?, 7);
/// # Ok::<(), Box<dyn core::error::Error>>(())
/// ```
#[inline]
pub fn get_string(
    alloc: Global,
    cursor: &mut Octets<'_>,
    max_len: usize,
) -> Result<Vec<u8>, LiteralError> {
    read_string(alloc, cursor, max_len)
}

/// Reads a literal as `get_string` does. Its contract says which literal it is, or why there is
/// none; the clauses of `get_string` follow from it.
#[inline]
fn read_string(
    alloc: Global,
    cursor: &mut Octets<'_>,
    max_len: usize,
) -> Result<Vec<u8>, LiteralError> {
    let data = find_data(cursor.as_ref())?;
    let whole = data.whole;
    let value = read_value(alloc, data.huffman, data.content, max_len)?;
    cursor.skip(whole)?;
    Ok(value)
}

/// Returns the value of the data, which are Huffman-encoded if the flag is set.
#[inline]
fn read_value(
    alloc: Global,
    huffman: bool,
    content: &[u8],
    max_len: usize,
) -> Result<Vec<u8>, LiteralError> {
    if huffman {
        huffman_value(alloc, content, max_len)
    } else {
        plain_value(alloc, content, max_len)
    }
}

/// Returns the value of Huffman-encoded data.
#[inline]
fn huffman_value(alloc: Global, content: &[u8], max_len: usize) -> Result<Vec<u8>, LiteralError> {
    match Octets::with_slice(content).get_huffman_decoded_with_max_length(alloc, max_len) {
        Ok(value) => Ok(value),
        Err(DecodeError::Short(_)) => Err(LiteralError::Value),
        Err(DecodeError::Memory(_)) => Err(LiteralError::OutOfMemory),
    }
}

/// Returns a copy of the data, which are the value.
#[inline]
fn plain_value(alloc: Global, content: &[u8], max_len: usize) -> Result<Vec<u8>, LiteralError> {
    if content.len() > max_len {
        return Err(LiteralError::Value);
    }
    Ok(Octets::with_slice(content).rattle_to_vec(alloc)?)
}
