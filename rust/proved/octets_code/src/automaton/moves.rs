// Erased from crates/octets_code/src/automaton/moves.rt by tools/erase.
//! One move of the automaton, read from its tables.
use rattle_std::{self as std, prelude::*};

use crate::entries::Move;
use crate::tables::bit_moves::BIT_MOVES;
use crate::tables::nibble_moves::NIBBLE_MOVES;

/// The move from the state with the number `index` over one bit.
#[inline]
pub(super) fn bit_move(index: u8, bit: bool) -> Move {
    BIT_MOVES[index as usize][bit as usize]
}

/// The move from the state with the number `index` over the four bits of `nibble`.
///
/// # Requires
///
/// - `nibble < 16`
#[inline(always)]
pub(super) fn nibble_move(index: u8, nibble: u8) -> Move {
    NIBBLE_MOVES[index as usize][nibble as usize]
}
