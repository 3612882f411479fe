// Erased from crates/octets_c/src/laws.rt by tools/erase.
//! How many bytes are always enough, as `octets.h` computes them. The contract of each function is
//! the law; the functions do nothing.
use rattle_std::{self as std, prelude::*};

/// `OCTETS_TEXT_MOST`: the Huffman encoding of a value of n bytes has at most 4 n bytes.
#[inline]
pub fn text_most() {}

/// `OCTETS_VALUE_MOST`: the value of a Huffman encoding of n bytes has at most 8 n / 5 bytes.
#[inline]
pub fn value_most() {}

/// `OCTETS_VALUE_MOST`: the value of a string literal at the start of n bytes has at most 8 n / 5
/// bytes.
#[inline]
pub fn string_most() {}

/// `OCTETS_LITERAL_MOST`: the literal that is written for a value of n bytes has at most n + 6
/// bytes.
#[inline]
pub fn literal_most() {}
