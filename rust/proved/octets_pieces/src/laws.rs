// Erased from crates/octets_pieces/src/laws.rt by tools/erase.
//! Laws of pieces. Each function does nothing. Its contract is the law, whose statement is in
//! `specs/Laws.antt`.
use rattle_std::{self as std, prelude::*};

/// However the bytes are cut into pieces, and wherever a decode stops for lack of space, what is
/// read of the pieces is what is read of the joined bytes. If 0 to 7 one bits are left, the bytes
/// that were read are the encoding of those that were written.
#[inline]
pub fn reads_join() {}

/// Where a decode of pieces stops, one decode of the joined bytes fails.
#[inline]
pub fn stops_fail() {}

/// A decode of a piece has one result: its contract leaves nothing open.
#[inline]
pub fn one_decode() {}

/// The contract that `decode_pieces` and `decode_whole` share determines the result, so both return
/// the same: the value, or the error with its place, and what is left in the slice.
#[inline]
pub fn one_result() {}
