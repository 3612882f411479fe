// Erased from crates/octets/src/huffman/decode/fault.rt by tools/erase.
//! Which failure a decode into a slice met first.
use rattle_std::{self as std, prelude::*};

use crate::error::IntoError;
use crate::huffman::decode::reading::front_state;
use crate::huffman::length::bit_len;
use octets_code::{Step, Steps};

/// Returns the half byte number `half` of `text`. The four most significant bits of each byte come
/// first.
///
/// # Requires
///
/// - `half < 2 * length text.now`
#[inline]
fn half_byte(text: &[u8], half: usize) -> u8 {
    let byte = text[half / 2];
    if half % 2 == 0 { byte >> 4 } else { byte & 0xf }
}

/// Returns whether the code of a byte begins at the bit `at`, by reading 4 bits at a time. If not,
/// EOS or no code begins there.
///
/// # Requires
///
/// - `at ≤ 8 * length text.now`
#[inline]
fn is_byte_at(text: &[u8], at: usize) -> bool {
    let mut state = front_state(text, at);
    let mut steps = Steps::new();
    for half in at.div_ceil(4)..2 * text.len() {
        match state.step(half_byte(text, half), &mut steps) {
            Step::On(next) => state = next,
            Step::Byte(_, _) => return true,
            Step::End => return false,
        }
    }
    false
}

/// Does the same as `is_byte_at`, for a bit position that may be too large for a `usize`.
///
/// # Requires
///
/// - `at ≤ 8 * length text.now`
#[inline]
fn begins_byte(text: &[u8], at: u128) -> bool {
    is_byte_at(&text[(at / 8) as usize..], (at % 8) as usize)
}

/// Returns the failure that stopped a decode of `text` into `room` bytes after it wrote `value`. If
/// `value` has `room` bytes, the function reads what follows the codes of `value`.
///
/// # Requires
///
/// - `IsReadBefore value.now text.now room`
/// - `length value.now ≤ room`
#[inline]
pub(crate) fn first_fault(text: &[u8], value: &[u8], room: usize) -> IntoError {
    let written = value.len();
    if written < room {
        return IntoError::NotText { written };
    }
    if begins_byte(text, bit_len(value, false)) {
        IntoError::NoRoom
    } else {
        IntoError::NotText { written }
    }
}
