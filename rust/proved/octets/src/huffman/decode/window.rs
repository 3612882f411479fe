// Erased from crates/octets/src/huffman/decode/window.rt by tools/erase.
//! The bits of an encoding in windows of 64 bits, with one bits after its end.
use rattle_std::{self as std, prelude::*};

use crate::huffman::words::{half_of, word_of};

/// Returns the last eight bytes of the encoding, or all bytes if there are fewer. The last byte is
/// the least significant one.
#[inline(always)]
pub(super) fn last_word(text: &[u8]) -> u64 {
    let len = text.len();
    if len >= 8 {
        return word_of(&text[len - 8..]);
    }
    if len >= 4 {
        let first = half_of(&text[..4]);
        let last = half_of(&text[len - 4..]);
        // The left operand has those of the first four bytes that aren't among the last four.
        return u64::from(first) >> (8 * (8 - len)) << 32 | u64::from(last);
    }
    let mut word: u64 = 0;
    for byte in text {
        word = word << 8 | u64::from(*byte);
    }
    word
}

/// Returns `last` without its first `past` bits, followed by one bits.
#[inline(always)]
fn rest_and_ones(last: u64, past: usize) -> u64 {
    if past >= 64 {
        return u64::MAX;
    }
    last << past | ((1 << past) - 1)
}

/// Returns the first 64 bits of the encoding.
///
/// # Requires
///
/// - `IsLast text.now last`
#[inline(always)]
pub(super) fn first_window(text: &[u8], last: u64) -> u64 {
    if text.len() >= 8 {
        return word_of(&text[..8]);
    }
    rest_and_ones(last, 64 - 8 * text.len())
}

/// Returns the bits that follow the window that begins at the bit `at`.
///
/// # Requires
///
/// - `IsLast text.now last`
/// - `length text.now < 2 ^ 60`
/// - `at ≤ 8 * length text.now`
#[inline(always)]
pub(super) fn bits_behind(text: &[u8], last: u64, at: usize) -> u64 {
    let from = at / 8;
    if text.len() - from >= 16 {
        return word_of(&text[from + 8..from + 16]) << (at % 8);
    }
    rest_and_ones(last, at + 128 - 8 * text.len())
}

/// Returns the window that begins `count` bits later.
///
/// # Requires
///
/// - `count ≤ 57`
#[inline(always)]
pub(super) fn next_window(window: u64, behind: u64, count: usize) -> u64 {
    // There are two shifts since `count` may be 0, and a shift by 64 bits would overflow.
    window << count | behind >> 1 >> (63 - count)
}
