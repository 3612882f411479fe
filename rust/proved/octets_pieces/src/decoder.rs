// Erased from crates/octets_pieces/src/decoder.rt by tools/erase.
//! The decoder, and its state between two pieces.
use rattle_std::{self as std, prelude::*};

use crate::byte_step::{ByteStep, step_byte};
use crate::error::{EosError, IncompleteError};

/// A Huffman decoder of an encoding that comes in pieces. It keeps the bits that were read since
/// the last code, as one byte.
///
/// Contracts see it as these bits.
#[derive(Clone, Copy, Debug)]
pub struct Decoder {
    index: u8,
}

/// How far a decode of a piece came.
#[derive(Clone, Copy, Debug, PartialEq, Eq)]
pub struct Progress {
    /// How many bytes of the piece were read.
    pub read: usize,
    /// How many bytes were written.
    pub written: usize,
}

/// Writes the bytes of `step` from the position `at` on, if there is space for them.
///
/// While there is space for two bytes, it makes two writes, whatever the number of bytes: this
/// can't be predicted, and a branch that is predicted wrongly takes longer. The second write may
/// repair what the first one did.
///
/// # Requires
///
/// - `at ≤ length out.old`
/// - `step.count ≤ 2`
#[inline(always)]
fn put_step(out: &mut [u8], at: usize, step: ByteStep) -> bool {
    if out.len() - at < 2 {
        if step.count > out.len() - at {
            return false;
        }
        if step.count == 1 {
            out[at] = step.first;
        }
        return true;
    }
    let old = out[at];
    out[at] = step.first;
    out[at + step.count / 2] = [old, step.first, step.second][step.count];
    true
}

impl Decoder {
    /// Writes as many of the bytes that `byte` completes as fit behind the position `at`, where it
    /// completes more. It doesn't read `byte`.
    ///
    /// # Requires
    ///
    /// - `at ≤ length out.old`
    /// - `IsTooMuch self.now byte (length out.old - at)`
    #[inline]
    pub(crate) fn fill(&self, byte: u8, out: &mut [u8], at: usize) {
        let Some(both) = step_byte(self.index, byte) else {
            return;
        };
        if at < out.len() {
            out[at] = both.first;
        }
    }

    /// Returns a decoder that has read nothing.
    #[inline]
    pub fn new() -> Decoder {
        Decoder { index: 0 }
    }

    /// Returns the decoder whose state is the byte `state`. Each byte is a state, and 0 is that of
    /// a decoder that has read nothing.
    #[inline]
    pub fn of_byte(state: u8) -> Decoder {
        Decoder { index: state }
    }

    /// Returns the state as a byte, for a caller that can store only that.
    #[inline]
    pub fn to_byte(&self) -> u8 {
        self.index
    }

    /// Reads whole bytes of `piece`, and writes the bytes whose codes they complete to the
    /// beginning of `out`.
    ///
    /// It stops before a byte that completes more bytes than `out` has space for. A byte completes
    /// at most two, so it reads all of `piece` if space for two bytes remains. It stops with an
    /// error before the byte in which EOS ends; the decoder has then read what came before this
    /// byte, and a decode that continues with this byte fails again.
    #[inline]
    pub fn decode(&mut self, piece: &[u8], out: &mut [u8]) -> Result<Progress, EosError> {
        let mut written = 0;
        for (read, byte) in piece.iter().enumerate() {
            let Some(step) = step_byte(self.index, *byte) else {
                return Err(EosError { read, written });
            };
            if !put_step(out, written, step) {
                return Ok(Progress { read, written });
            }
            written += step.count;
            self.index = step.index;
        }
        Ok(Progress {
            read: piece.len(),
            written,
        })
    }

    /// Returns `Ok` exactly if the encoding may end here: the bits that remain are 0 to 7 one bits.
    #[inline]
    pub fn finish(&self) -> Result<(), IncompleteError> {
        let fill = self.index < 8;
        if fill { Ok(()) } else { Err(IncompleteError) }
    }
}
