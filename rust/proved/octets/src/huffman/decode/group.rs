// Erased from crates/octets/src/huffman/decode/group.rt by tools/erase.
//! The codes at the start of a window of 64 bits.
use rattle_std::{self as std, prelude::*};

use octets_code::{Coded, code_behind, look_at};

/// Decoded bytes: the `count` least significant bytes of `bytes`, least significant byte first.
/// Their codes have `len` bits together.
pub(super) struct Group {
    pub(super) len: usize,
    pub(super) count: usize,
    pub(super) bytes: u64,
}

/// What at most four lookups in a window have found.
#[derive(Clone, Copy)]
struct Seen {
    /// The bits after the codes that were found.
    rest: u64,
    /// The sum of the cuts of these lookups. They find fewer than 64 bits, so the sum is the length
    /// of the codes, plus 64 times their number.
    sums: u64,
    /// The bytes of these codes. The first byte is the least significant one.
    bytes: u64,
}

/// Does one more lookup.
///
/// # Requires
///
/// - `(x : List Bool) × (k : ℕ) × (k ≤ 3) × IsSeen x k seen.rest seen.sums seen.bytes`
#[inline(always)]
fn look_on(seen: Seen) -> Seen {
    let look = look_at((seen.rest >> 52) as u16);
    let cut = u64::from(look.cut);
    Seen {
        rest: seen.rest << (cut % 64),
        sums: seen.sums + cut,
        bytes: seen.bytes | u64::from(look.pair) << (seen.sums / 64 * 8),
    }
}

/// Does up to four lookups in the window, and returns `None` if the first finds no code. If the
/// second finds none, it leaves out the other two: if many codes are long, this saves time.
#[inline(always)]
pub(super) fn look_ahead(window: u64) -> Option<Group> {
    let first = look_on(Seen {
        rest: window,
        sums: 0,
        bytes: 0,
    });
    if first.sums == 0 {
        return None;
    }
    let second = look_on(first);
    let seen = if second.sums == first.sums {
        second
    } else {
        look_on(look_on(second))
    };
    Some(Group {
        len: (seen.sums % 64) as usize,
        count: (seen.sums / 64) as usize,
        bytes: seen.bytes,
    })
}

/// Returns the byte whose code is at the start of the window, and the length of this code. It
/// returns `None` if EOS is at the start of the window.
#[inline(always)]
pub(super) fn long_code(window: u64) -> Option<Coded> {
    // The 31st bit counts as a zero, so that the code of EOS has 30 leading ones.
    let ones = (!window | 1 << 33).leading_zeros();
    code_behind(ones, (window >> (58 - ones) & 31) as u8)
}
