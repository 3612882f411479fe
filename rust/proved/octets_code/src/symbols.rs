// Erased from crates/octets_code/src/symbols.rt by tools/erase.
//! The code of each symbol, and the symbol of each code.
use rattle_std::{self as std, prelude::*};

use crate::entries::Code;
use crate::tables::codes::CODES;
use crate::tables::lengths::CODE_LENGTHS;

/// Returns the code of the symbol `sym` (RFC 7541, Appendix B).
///
/// A symbol is a byte, or 256 for the end of a string. No text contains the code of 256.
///
/// # Requires
///
/// - `sym ≤ 256`
#[inline(always)]
#[cfg_attr(feature = "checked", track_caller)]
pub fn code_of(sym: u16) -> Code {
    #[cfg(feature = "checked")]
    ::core::assert!((sym as u128) <= 256u128, "`code_of` requires `sym ≤ 256`");
    // Each field is copied by itself. If the whole code is copied, the compiler loads it as one
    // word, and then takes it apart.
    let code = &CODES[sym as usize];
    Code {
        len: code.len,
        bits: code.bits,
    }
}

/// Returns the length of the code of `byte` in bits.
///
/// It reads a table of 1 KiB; [`code_of`] reads one of 2 KiB.
#[inline(always)]
pub fn code_len(byte: u8) -> u32 {
    CODE_LENGTHS[byte as usize]
}

/// Returns the symbol whose code is the number `bits` in `len` bits.
///
/// It searches the whole table, and is meant for tests. It returns `None` if no code has this
/// length and these bits. That includes bits that don't fit into `len` bits.
#[inline]
pub fn lookup(len: u8, bits: u32) -> Option<u16> {
    for symbol in 0..257 {
        let code = code_of(symbol);
        if code.len == len && code.bits == bits {
            return Some(symbol);
        }
    }
    None
}
