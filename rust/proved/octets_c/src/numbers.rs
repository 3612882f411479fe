// Erased from crates/octets_c/src/numbers.rt by tools/erase.
//! Reads of numbers in network order.
use rattle_std::{self as std, prelude::*};

use crate::cursors::{over, read_at};
use crate::status::{DONE, SHORT};

/// Read an integer of 1, 2, 3, 4 or 8 bytes, the most significant byte first, and set *value to it.
///
/// Returns OCTETS_SHORT if and only if fewer bytes remain than the integer has, otherwise
/// OCTETS_DONE.
#[inline]
pub fn octets_get_u8(bytes: &[u8], off: &mut usize, value: &mut u8) -> u8 {
    read_at!(bytes, off, value, 1, cursor => cursor.get_u8())
}

/// As octets_get_u8.
#[inline]
pub fn octets_get_u16(bytes: &[u8], off: &mut usize, value: &mut u16) -> u8 {
    read_at!(bytes, off, value, 2, cursor => cursor.get_u16())
}

/// As octets_get_u8.
#[inline]
pub fn octets_get_u24(bytes: &[u8], off: &mut usize, value: &mut u32) -> u8 {
    read_at!(bytes, off, value, 3, cursor => cursor.get_u24())
}

/// As octets_get_u8.
#[inline]
pub fn octets_get_u32(bytes: &[u8], off: &mut usize, value: &mut u32) -> u8 {
    read_at!(bytes, off, value, 4, cursor => cursor.get_u32())
}

/// As octets_get_u8.
#[inline]
pub fn octets_get_u64(bytes: &[u8], off: &mut usize, value: &mut u64) -> u8 {
    read_at!(bytes, off, value, 8, cursor => cursor.get_u64())
}
