// Erased from crates/octets_code/src/counting.rt by tools/erase.
//! The count of the automaton's steps.
use rattle_std::{self as std, prelude::*};

/// A count of the automaton's steps over half bytes.
///
/// Contracts see it as a number. [`State::step`](crate::State::step) adds one to it.
/// [`Steps::spare`] adds the steps that a decoder saves if it reads several codes at once.
#[derive(Debug)]
pub struct Steps {
    taken: u128,
}

impl Steps {
    /// Returns a count of no steps.
    #[inline]
    pub fn new() -> Steps {
        Steps { taken: 0 }
    }

    /// Returns how many steps were taken.
    #[inline]
    pub fn count(&self) -> u128 {
        self.taken
    }

    /// Counts the steps over `halves` half bytes, whose codes were read at once. The sum must be
    /// below 2 to the power 128.
    ///
    /// # Requires
    ///
    /// - `self.old + halves < 2 ^ 128`
    #[inline(always)]
    pub fn spare(&mut self, halves: usize) {
        let Steps { taken } = self;
        *taken += halves as u128;
    }

    /// Counts one more step.
    ///
    /// # Requires
    ///
    /// - `self.old + 1 < 2 ^ 128`
    #[inline(always)]
    pub(crate) fn add_one(&mut self) {
        let Steps { taken } = self;
        *taken += 1;
    }
}
