// Erased from crates/octets/src/huffman/words.rt by tools/erase.
//! Conversions between words and bytes in network order.
use rattle_std::{self as std, prelude::*};

/// Returns the bytes of a word, most significant byte first.
///
/// It compiles to one byte swap; `to_be_bytes` compiles to shuffles of single bytes.
#[inline]
pub(crate) fn word_bytes(word: u64) -> [u8; 8] {
    word.to_be().to_ne_bytes()
}

/// Returns eight bytes as a big-endian word. It compiles to one byte swap too.
///
/// # Requires
///
/// - `length bytes.now ≡ 8`
#[inline]
pub(crate) fn word_of(bytes: &[u8]) -> u64 {
    match bytes.first_chunk::<8>() {
        Some(word) => u64::from_be(u64::from_ne_bytes(*word)),
        None => 0,
    }
}

/// Returns four bytes as a big-endian word.
///
/// # Requires
///
/// - `length bytes.now ≡ 4`
#[inline]
pub(crate) fn half_of(bytes: &[u8]) -> u32 {
    match bytes.first_chunk::<4>() {
        Some(half) => u32::from_be(u32::from_ne_bytes(*half)),
        None => 0,
    }
}
