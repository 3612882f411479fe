// Erased from crates/octets_pieces/src/byte_step.rt by tools/erase.
//! A step of the automaton over a whole byte, which has no branch but for the end code.
//!
//! A state is its number in `octets_code`, whose path is the bits since the last code.
use rattle_std::{self as std, prelude::*};

use crate::tables::halves::HALVES;

/// What a half byte completes.
#[derive(Clone, Copy)]
pub(crate) struct Half {
    /// The number of the next state.
    pub(crate) index: u8,
    /// The byte whose code was completed.
    pub(crate) byte: u8,
    /// How many codes were completed, 0 or 1; or 3 for the end code.
    pub(crate) count: usize,
}

/// What a byte completes after the bits that remained before it.
#[derive(Clone, Copy)]
pub(crate) struct ByteStep {
    /// The number of the next state.
    pub(crate) index: u8,
    /// The byte whose code was completed first.
    pub(crate) first: u8,
    /// The byte whose code was completed second.
    pub(crate) second: u8,
    /// How many codes were completed, at most two.
    pub(crate) count: usize,
}

/// Takes the step over the four bits of `half`.
///
/// # Requires
///
/// - `half < 16`
#[inline(always)]
fn step_half(index: u8, half: u8) -> Half {
    let entry = HALVES[index as usize * 16 + half as usize];
    Half {
        index: (entry % 256) as u8,
        byte: (entry / 256 % 256) as u8,
        count: (entry / 65536) as usize,
    }
}

/// Takes the step over the eight bits of `byte`, and returns `None` if they complete the end code.
#[inline(always)]
pub(crate) fn step_byte(index: u8, byte: u8) -> Option<ByteStep> {
    let high = step_half(index, byte / 16);
    let low = step_half(high.index, byte % 16);
    let count = high.count + low.count;
    if count > 2 {
        return None;
    }
    Some(ByteStep {
        index: low.index,
        first: if high.count == 1 { high.byte } else { low.byte },
        second: low.byte,
        count,
    })
}
