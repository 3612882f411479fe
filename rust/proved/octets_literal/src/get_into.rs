// Erased from crates/octets_literal/src/get_into.rt by tools/erase.
//! Calls that read a literal into a slice, without allocating.
use rattle_std::{self as std, prelude::*};

use crate::data::find_data;
use crate::error::{LiteralError, ValueError};
use octets::Octets;

/// Reads a string literal (RFC 7541, section 5.2) into the beginning of `out`, whose length is the
/// limit, moves the offset past the literal, and returns the length of its value. It allocates
/// nothing.
///
/// It reads what `get_string` reads and fails when that call fails. If it fails, the offset is
/// unchanged. `out` is unchanged too, with one exception: after a `Value` error of Huffman-encoded
/// data, `out` begins with what was decoded before the fault.
///
/// ```
/// # use octets_literal::*;
/// # use octets::*;
/// let mut cursor = Octets::with_slice(&[2, 97, 98, 7]);
/// let mut out = [0; 4];
/// assert_eq!(get_string_into(&mut cursor, &mut out)?, 2);
/// assert_eq!(out, [97, 98, 0, 0]);
/// # Ok::<(), Box<dyn core::error::Error>>(())
/// ```
#[inline]
pub fn get_string_into(cursor: &mut Octets<'_>, out: &mut [u8]) -> Result<usize, LiteralError> {
    // This call doesn't say why data have no value.
    let mut fault = ValueError::Long;
    read_string_into(cursor, out, &mut fault)
}

/// Reads a literal as `get_string_into` does. Its contract says which literal it is, or why there
/// is none; the clauses of `get_string_into` follow from it. If the call fails with `Value`,
/// `fault` says why the data have no value; otherwise `fault` is unchanged.
///
/// ```
/// # use octets_literal::*;
/// # use octets::*;
/// let mut cursor = Octets::with_slice(&[0x82, 0x18, 0xff]);
/// let mut fault = ValueError::Long;
/// assert!(read_string_into(&mut cursor, &mut [0], &mut fault).is_err());
/// assert_eq!(fault, ValueError::Text(IntoError::NoRoom));
/// ```
#[inline]
pub fn read_string_into(
    cursor: &mut Octets<'_>,
    out: &mut [u8],
    fault: &mut ValueError,
) -> Result<usize, LiteralError> {
    let data = find_data(cursor.as_ref())?;
    let whole = data.whole;
    let Some(len) = read_value_into(data.huffman, data.content, out, fault) else {
        return Err(LiteralError::Value);
    };
    cursor.skip(whole)?;
    Ok(len)
}

/// Writes the value of the data into `out`, and returns its length. The data are Huffman-encoded if
/// the flag is set.
#[inline]
fn read_value_into(
    huffman: bool,
    content: &[u8],
    out: &mut [u8],
    fault: &mut ValueError,
) -> Option<usize> {
    if huffman {
        decoded_into(content, out, fault)
    } else {
        copied_into(content, out, fault)
    }
}

/// Writes the value of Huffman-encoded data into `out`.
#[inline]
fn decoded_into(content: &[u8], out: &mut [u8], fault: &mut ValueError) -> Option<usize> {
    match Octets::with_slice(content).get_huffman_decoded_into(out) {
        Ok(len) => Some(len),
        Err(why) => {
            *fault = ValueError::Text(why);
            None
        }
    }
}

/// Copies the data, which are the value, into `out`.
#[inline]
fn copied_into(content: &[u8], out: &mut [u8], fault: &mut ValueError) -> Option<usize> {
    let len = content.len();
    if len > out.len() {
        *fault = ValueError::Long;
        return None;
    }
    out[..len].copy_from_slice(content);
    Some(len)
}
