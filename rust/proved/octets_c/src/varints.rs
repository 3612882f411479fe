// Erased from crates/octets_c/src/varints.rt by tools/erase.
//! Reads of variable-length integers (RFC 9000, section 16).
use rattle_std::{self as std, prelude::*};

use crate::cursors::at_byte;
use crate::status::{DONE, OVERLONG, SHORT};
use octets::{MAX_VAR_INT, VarintError, varint_len, varint_parse_len};

/// Reads a varint of any width, even if a smaller width could hold its value.
///
/// Returns OCTETS_SHORT if and only if the buffer ends before the varint does, otherwise
/// OCTETS_DONE. If at least eight bytes remain, the buffer never ends before the varint.
#[inline]
pub fn octets_get_varint(bytes: &[u8], off: &mut usize, value: &mut u64) -> u8 {
    let Ok(mut cursor) = at_byte(bytes, *off) else {
        return SHORT;
    };
    let Ok(read) = cursor.get_varint() else {
        return SHORT;
    };
    *value = read;
    *off = cursor.off();
    DONE
}

/// Reads a varint, and fails if it is wider than its value needs.
///
/// Returns OCTETS_SHORT if and only if the buffer ends before the varint does, OCTETS_OVERLONG if
/// and only if the varint is complete and wider than its value needs, otherwise OCTETS_DONE.
#[inline]
pub fn octets_get_varint_shortest(bytes: &[u8], off: &mut usize, value: &mut u64) -> u8 {
    let Ok(mut cursor) = at_byte(bytes, *off) else {
        return SHORT;
    };
    match cursor.get_varint_shortest() {
        Ok(read) => {
            *value = read;
            *off = cursor.off();
            DONE
        }
        Err(VarintError::Short) => SHORT,
        Err(VarintError::Overlong) => OVERLONG,
    }
}

/// Returns the smallest width of a varint that holds value: 1, 2, 4 or 8 bytes; or 0 if value is
/// above OCTETS_VARINT_MAX.
#[inline]
pub fn octets_varint_len(value: u64) -> usize {
    if value > MAX_VAR_INT {
        return 0;
    }
    varint_len(value)
}

/// Returns the width of a varint whose first byte is first: 1, 2, 4 or 8 bytes. Every byte is the
/// first byte of a varint.
#[inline]
pub fn octets_varint_parse_len(first: u8) -> usize {
    varint_parse_len(first)
}
