// Erased from crates/octets_code/src/long_codes.rt by tools/erase.
//! The symbol of a code, found by the one bits with which the code begins.
use rattle_std::{self as std, prelude::*};

use crate::tables::symbols::SYMBOLS;

/// A byte, and the length of its code.
#[derive(Clone, Copy, Debug, PartialEq, Eq)]
pub struct Coded {
    /// The byte.
    pub byte: u8,
    /// The length of its code in bits, from 5 to 30.
    pub len: u8,
}

/// Reads `ones` one bits, a zero and the five bits of `more`. It returns the byte whose code these
/// bits begin with, or `None` for thirty one bits, which are the end code. `ones` must be at most
/// 30, and `more` below 32. No code has more than five bits after its first zero.
///
/// # Requires
///
/// - `ones ≤ 30`
/// - `more < 32`
#[inline(always)]
#[cfg_attr(feature = "checked", track_caller)]
pub fn code_behind(ones: u32, more: u8) -> Option<Coded> {
    #[cfg(feature = "checked")]
    ::core::assert!((ones as u128) <= 30u128, "`code_behind` requires `ones ≤ 30`");
    #[cfg(feature = "checked")]
    ::core::assert!((more as u128) < 32u128, "`code_behind` requires `more < 32`");
    let entry = entry_at(ones, more);
    let symbol = entry >> 5;
    if symbol > 255 {
        return None;
    }
    Some(Coded {
        byte: symbol as u8,
        len: (entry & 31) as u8,
    })
}

/// Returns 32 times the symbol whose code these bits begin with, plus the length of this code, so
/// that the table is read by one load. Thirty ones begin with the code of 256.
///
/// # Requires
///
/// - `ones ≤ 30`
/// - `more < 32`
#[inline(always)]
fn entry_at(ones: u32, more: u8) -> u16 {
    SYMBOLS[ones as usize * 32 + usize::from(more)]
}
