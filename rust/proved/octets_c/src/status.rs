// Erased from crates/octets_c/src/status.rt by tools/erase.
//! The statuses that the exported functions return, with their names in `octets.h`.
use rattle_std::{self as std, prelude::*};

/// The call succeeded.
pub(crate) const DONE: u8 = 0;

/// Too few bytes remain, or too little space; or an encoding is longer than its value.
pub(crate) const SHORT: u8 = 1;

/// A varint is wider than its value needs.
pub(crate) const OVERLONG: u8 = 2;

/// No varint holds the number, or no varint of that width does.
pub(crate) const UNFIT: u8 = 3;

/// A reader doesn't take the length of a literal, or a value is longer than any that is written.
pub(crate) const LONG: u8 = 4;

/// The bytes aren't a Huffman encoding.
pub(crate) const NOT_TEXT: u8 = 5;

/// A value has more bytes than the caller's buffer.
pub(crate) const NO_ROOM: u8 = 6;
