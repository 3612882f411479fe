// Erased from crates/octets/src/huffman/encode/front.rt by tools/erase.
//! Stores of the first bytes of a word. They write exactly these bytes, and read none of the bytes
//! that they overwrite or that follow these.
use rattle_std::{self as std, prelude::*};

use crate::copies::{put_first, put_last};

/// Returns the word with its bytes in the other order, so that its most significant byte is now
/// the least significant one.
#[inline(always)]
fn turned(word: u64) -> u64 {
    word.swap_bytes()
}

/// Returns four bytes of `word`, from the byte with the index `at` on, where the least significant
/// byte has the index 0.
///
/// # Requires
///
/// - `at ≤ 4`
#[inline(always)]
fn four_bytes(word: u64, at: usize) -> [u8; 4] {
    let moved = word >> (8 * at as u32);
    ((moved % (1 << 32)) as u32).to_le_bytes()
}

/// Returns two bytes of `word`, from the byte with the index `at` on, where the least significant
/// byte has the index 0.
///
/// # Requires
///
/// - `at ≤ 6`
#[inline(always)]
fn two_bytes(word: u64, at: usize) -> [u8; 2] {
    let moved = word >> (8 * at as u32);
    ((moved % (1 << 16)) as u16).to_le_bytes()
}

/// Overwrites all of `to`, which has 1 to 8 bytes, by the most significant bytes of `word`, most
/// significant byte first.
///
/// There are two stores of four bytes, or two of two bytes, or one of one byte. The two stores
/// overlap if `to` has an odd number of bytes, or six.
///
/// # Requires
///
/// - `1 ≤ length to.old`
/// - `length to.old ≤ 8`
#[inline(always)]
pub(crate) fn put_front(to: &mut [u8], word: u64) {
    let bytes = turned(word);
    let len = to.len();
    if len >= 4 {
        put_first(to, &four_bytes(bytes, 0));
        put_last(to, &four_bytes(bytes, len - 4));
    } else if len >= 2 {
        put_first(to, &two_bytes(bytes, 0));
        put_last(to, &two_bytes(bytes, len - 2));
    } else {
        put_first(to, &[(bytes % 0x100) as u8]);
    }
}
