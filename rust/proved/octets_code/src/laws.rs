// Erased from crates/octets_code/src/laws.rt by tools/erase.
//! Laws of the code, of its texts, and of what a decoder returns for them. A text is the Huffman
//! encoding of a byte string.
//!
//! Each function does nothing. Its contract is the law, whose statement is in `specs/Laws.antt`.
use rattle_std::{self as std, prelude::*};

/// No code is a prefix of another.
#[inline]
pub fn codes_apart() {}

/// If a prefix of a code isn't a code, each bit extends it to a prefix of a code.
#[inline]
pub fn fronts_go_on() {}

/// The end code is the only code that consists of one bits.
#[inline]
pub fn only_end_is_ones() {}

/// The 256 states of the automaton are exactly the prefixes of codes that aren't codes, each once.
#[inline]
pub fn states_are_fronts() {}

/// Each value has exactly one text, and different values have different texts.
#[inline]
pub fn texts_apart() {}

/// A decoder returns the value that was encoded, under every limit that the value is within. And
/// bytes that are cut into codes of bytes and 0 to 7 one bits are a text.
#[inline]
pub fn text_read_back() {}

/// Bits have at most one fault under a limit, and a decoder that reads from the start meets it.
#[inline]
pub fn fault_read_once() {}

/// Under each limit, bytes have a value, or a decode of them fails after one number of bytes. The
/// number of steps is determined, and at most two for each byte.
#[inline]
pub fn answers_decided() {}

/// A value has at most 1.6 times as many bytes as its text, and a text at most four bytes for each
/// byte of its value.
#[inline]
pub fn lengths_bounded() {}
