// Erased from crates/octets_code/src/automaton.rt by tools/erase.
//! The automaton that reads codes, one bit or half a byte at a time.
//!
//! Its 256 states are the prefixes of codes that aren't codes. The numbers of the states are
//! private.
use rattle_std::{self as std, prelude::*};

mod moves;

use crate::counting::Steps;
use crate::entries::Move;
use crate::tables::fronts::FRONTS;
use moves::{bit_move, nibble_move};

/// The bits that were read since the last code. They are a prefix of some code, but not a code.
///
/// Contracts see a state as these bits, which are its path. Two states are equal exactly if their
/// paths are.
#[derive(Clone, Copy, Debug)]
pub struct State {
    index: u8,
}

impl PartialEq for State {
    #[inline]
    fn eq(&self, other: &State) -> bool {
        self.index == other.index
    }
}

impl Eq for State {
}

/// The result of a step over one bit or more.
#[derive(Clone, Copy, Debug, PartialEq, Eq)]
pub enum Step {
    /// No code was completed. The state has all bits since the last code.
    On(State),
    /// The code of this byte was completed. The state has the bits after it.
    Byte(State, u8),
    /// The end code was completed, which RFC 7541 calls EOS.
    End,
}

/// The step of a move of the tables, from whatever path over whatever bits it leads.
#[inline(always)]
fn step_of(read: Move) -> Step {
    match read {
        Move::On(index) => Step::On(State { index }),
        Move::Byte(index, byte) => Step::Byte(State { index }, byte),
        Move::End => Step::End,
    }
}

impl State {
    /// Returns the state at the start, which has no bits.
    #[inline]
    pub fn root() -> State {
        State { index: 0 }
    }

    /// Returns the state whose path is the number `bits`, written in `len` bits. `len` must be at
    /// most three, and `bits` must be below 2 to the power `len`. Each code has more bits than
    /// that, so any three bits are a prefix of a code.
    ///
    /// # Requires
    ///
    /// - `len ≤ 3`
    /// - `bits < 2 ^ len`
    #[inline(always)]
    #[cfg_attr(feature = "checked", track_caller)]
    pub fn of_front(len: u8, bits: u8) -> State {
        #[cfg(feature = "checked")]
        ::core::assert!((len as u128) <= 3u128, "`of_front` requires `len ≤ 3`");
        // A one bit before the others keeps paths of different lengths apart, such as 0 and 00.
        State {
            index: FRONTS[(1 << len | bits) as usize],
        }
    }

    /// Returns whether the path is 0 to 7 one bits, with which a text may end (RFC 7541, section
    /// 5.2, calls them padding).
    #[inline(always)]
    pub fn is_fill(&self) -> bool {
        // The states of 0 to 7 one bits have the first numbers, so that no table is read.
        self.index < 8
    }

    /// Takes a step over one bit. It is meant for tests; a decoder uses [`State::step`].
    #[inline]
    pub fn step_bit(self, bit: bool) -> Step {
        step_of(bit_move(self.index, bit))
    }

    /// Takes a step over the four bits of `nibble`, the most significant first, and adds one to
    /// `steps`. `nibble` must be below 16, and the count below 2 to the power 128, less one.
    ///
    /// Each code has at least 5 bits, so a step completes at most one.
    ///
    /// # Requires
    ///
    /// - `nibble < 16`
    /// - `steps.old + 1 < 2 ^ 128`
    #[inline(always)]
    #[cfg_attr(feature = "checked", track_caller)]
    pub fn step(self, nibble: u8, steps: &mut Steps) -> Step {
        #[cfg(feature = "checked")]
        ::core::assert!((nibble as u128) < 16u128, "`step` requires `nibble < 16`");
        steps.add_one();
        step_of(nibble_move(self.index, nibble))
    }
}
