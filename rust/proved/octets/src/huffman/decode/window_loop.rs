// Erased from crates/octets/src/huffman/decode/window_loop.rt by tools/erase.
//! Reads the codes of an encoding in windows of 64 bits.
use rattle_std::{self as std, prelude::*};

use crate::huffman::decode::group::{Group, long_code, look_ahead};
use crate::huffman::decode::short::look_through;
use crate::huffman::decode::store::Store;
use crate::huffman::decode::window::{bits_behind, first_window, last_word, next_window};

/// Returns the codes of bytes at the start of the window: at most `room` codes, of at most `left`
/// bits together. It returns `None` if the first code isn't that of a byte or has more than `left`
/// bits, or if `room` is 0.
#[inline(always)]
fn codes_at_start(window: u64, left: usize, room: usize) -> Option<Group> {
    match look_ahead(window) {
        Some(seen) if seen.len <= left && seen.count <= room => Some(seen),
        // Here only the padding is left, in which there is no code.
        None if left <= 12 => None,
        _ => one_at_start(window, left, room),
    }
}

/// Returns the one code of a byte at the start of the window, under the limits of `codes_at_start`.
#[inline]
fn one_at_start(window: u64, left: usize, room: usize) -> Option<Group> {
    if room == 0 {
        return None;
    }
    let found = long_code(window)?;
    let len = usize::from(found.len);
    if len > left {
        return None;
    }
    Some(Group {
        len,
        count: 1,
        bytes: u64::from(found.byte),
    })
}

/// The part of an encoding that was read in windows.
pub(super) struct Whole {
    /// The number of bits of the codes that were read.
    pub(super) at: usize,
    /// Whether the remaining bits are the padding.
    pub(super) filled: bool,
}

/// Adds the bytes whose codes are at the start of `text`. It stops at the padding, at the limit, or
/// if no code of a byte follows. It reads nothing of an encoding of 2^60 bytes or more (of 2^28
/// bytes, if `usize` has 32 bits), so that the number of bits plus 128 fits in a `usize`.
///
/// # Requires
///
/// - `S.held value.old ≡ []`
/// - `min (2 * length text.now) max_len ≤ S.room value.old`
#[inline(always)]
pub(super) fn read_whole<S: Store>(text: &[u8], value: &mut S, max_len: usize) -> Whole {
    if text.len() >= 1 << (usize::BITS - 4) {
        return Whole {
            at: 0,
            filled: false,
        };
    }
    let total = 8 * text.len();
    let last = last_word(text);
    let mut window = first_window(text, last);
    let mut at = 0;
    if text.len() <= 8 {
        let mut bytes = [0; 32];
        let found = look_through(window, &mut bytes);
        if found.count > 0 && found.at <= total && found.count <= max_len {
            value.put_first(&bytes, found.count);
            window = !found.inverse;
            at = found.at;
        }
    }
    'groups: while total - at >= 8 || window != u64::MAX {
        let Some(codes) = codes_at_start(window, total - at, max_len - value.count()) else {
            return Whole { at, filled: false };
        };
        let next = bits_behind(text, last, at);
        value.put_word(codes.bytes, codes.count);
        window = next_window(window, next, codes.len);
        at += codes.len;
    }
    Whole { at, filled: true }
}
