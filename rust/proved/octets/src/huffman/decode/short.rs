// Erased from crates/octets/src/huffman/decode/short.rt by tools/erase.
//! Finds the codes of an encoding of at most eight bytes, which is one window of 64 bits with one
//! bits after its end.
use rattle_std::{self as std, prelude::*};

use octets_code::look_at;

/// The codes of a window that the lookups found.
pub(super) struct Found {
    /// The length of these codes in bits.
    pub(super) at: usize,
    /// The number of these codes.
    pub(super) count: usize,
    /// The window after these codes, with each bit inverted.
    pub(super) inverse: u64,
}

/// Looks up the next 12 bits up to eight times, and writes the bytes of the codes that it finds to
/// the start of `value`. It stops at a code of more than 12 bits, or if only one bits are left.
///
/// The last codes may contain some of the one bits after the window's end. The caller compares `at`
/// with the length of the encoding.
#[inline(always)]
pub(super) fn look_through(window: u64, value: &mut [u8; 32]) -> Found {
    // The window is inverted, so a shift adds one bits after its end.
    let mut inverse = !window;
    // The sum of the cuts of the lookups. Eight lookups may find 64 bits or more, which count as
    // one code more in this sum. So the number of codes is also counted by itself.
    let mut sums: usize = 0;
    let mut count: usize = 0;
    let mut looks: usize = 0;
    // The first two lookups are made even if one is enough: a mispredicted branch takes longer.
    'looks: while looks < 8 && (looks < 2 || inverse != 0) {
        let look = look_at((!inverse >> 52) as u16);
        if look.cut == 0 {
            break 'looks;
        }
        // Both bytes are written even if the lookup found one code; the next lookup overwrites the
        // second.
        value[count] = (look.pair & 0xff) as u8;
        value[count + 1] = (look.pair >> 8) as u8;
        sums += usize::from(look.cut);
        count += usize::from(look.cut / 64);
        inverse = inverse << (look.cut % 64);
        looks += 1;
    }
    Found {
        at: sums - 64 * count,
        count,
        inverse,
    }
}
