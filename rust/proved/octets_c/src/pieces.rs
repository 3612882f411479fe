// Erased from crates/octets_c/src/pieces.rt by tools/erase.
//! Huffman encoding (RFC 7541, section 5.2) piece by piece, for a caller that keeps the state
//! between the calls.
use rattle_std::{self as std, prelude::*};

use crate::status::{DONE, UNFIT};
use octets::{Pending, cased_byte};

/// The state of an encode. At its start all fields are zero.
#[derive(Clone, Copy)]
#[repr(C)]
pub struct Place {
    /// How many bytes of the value were taken.
    pub at: usize,
    /// The bits of their codes that weren't given yet, as the highest bits; the others are zero.
    pub bits: u64,
    /// How many bits these are, below 64.
    pub count: u32,
    /// How many of the last bytes were given. The last bytes come after the last whole word.
    pub given: u32,
}

/// Returns whether fewer than 64 bits wait, and no other bit is set.
#[inline]
fn holds_bits(place: &Place) -> bool {
    place.count < 64 && place.bits & (u64::MAX >> place.count) == 0
}

/// Adds the code of `byte` to the bits that wait. If there are now at least 64 bits, it takes the
/// first 64 and returns them.
///
/// # Requires
///
/// - `HoldsBits place.old`
#[inline]
fn push_code(place: &mut Place, byte: u8) -> Option<u64> {
    let mut pending = Pending::of_bits(place.count, place.bits);
    let word = pending.push_code(byte);
    place.count = pending.count();
    place.bits = pending.bits();
    word
}

/// Returns the next word of the encoding, if the bits that wait and the codes that follow fill one.
/// Otherwise all codes wait.
///
/// # Requires
///
/// - `HoldsBits place.old`
#[inline]
fn next_word(place: &mut Place, value: &[u8], to_lower: bool) -> Option<u64> {
    for at in place.at..value.len() {
        place.at = at + 1;
        if let Some(word) = push_code(place, cased_byte(value[at], to_lower)) {
            return Some(word);
        }
    }
    None
}

/// Returns how many bytes the next piece of the last bytes has, or 0 if none is left. The last
/// bytes are those that `count` bits need, and `given` of them were given before.
///
/// These are the pieces of `octets_put_huffman_encoded`: one of four bytes, if there are as many,
/// and then single bytes. Once the first piece was given, each further one is a single byte.
///
/// # Requires
///
/// - `count < 64`
#[inline]
fn next_len(count: u32, given: u32) -> usize {
    let all = (count + 7) / 8;
    if all <= given {
        return 0;
    }
    if given == 0 && 4 <= all {
        return 4;
    }
    1
}

/// Gives the next of the last bytes, and returns how many these are, which is 0 if none is left.
///
/// # Requires
///
/// - `HoldsBits place.old`
#[inline]
fn give_last(place: &mut Place, piece: &mut [u8; 8]) -> usize {
    let len = next_len(place.count, place.given);
    if len == 0 {
        return 0;
    }
    let from = place.given as usize;
    let bytes = (place.bits | u64::MAX >> place.count).to_be_bytes();
    piece[..len].copy_from_slice(&bytes[from..from + len]);
    place.given += len as u32;
    len
}

/// Returns whether the place can be one that an encode of `value` leaves: it holds bits, it isn't
/// past `value`, and the last bytes are begun only after all of `value`.
#[inline]
fn can_be_place(place: &Place, value: &[u8]) -> bool {
    holds_bits(place) && place.at <= value.len() && (place.given == 0 || value.len() <= place.at)
}

/// Gives the next piece, and returns how many bytes it has, which is 0 if none is left.
///
/// # Requires
///
/// - `CanBePlace value.now place.old`
#[inline]
fn give_piece(place: &mut Place, value: &[u8], to_lower: bool, piece: &mut [u8; 8]) -> usize {
    if let Some(word) = next_word(place, value, to_lower) {
        *piece = word.to_be_bytes();
        return 8;
    }
    give_last(place, piece)
}

/// Writes the next piece of the encoding of value to the first *len bytes of *piece. The pieces are
/// those into which octets_put_huffman_encoded divides the encoding. *len is the size of the piece:
/// 8, 4 or 1, or 0 if no piece was left. The other bytes of *piece are unchanged. Zero-initialize
/// *place before the first call, and pass the same value, lower_case and place to each call.
///
/// Returns OCTETS_UNFIT if and only if at least one of these is true: `count` is 64 or more; `bits`
/// has a 1 after its first `count` bits; `at` is above value_len; `at` is below value_len while
/// `given` isn't 0. Otherwise it returns OCTETS_DONE. A zero-initialized state, and every state
/// that a call with the same value left, is accepted. A wrong state that meets none of these
/// conditions isn't detected, for example if value was changed. The call then continues with the
/// contents of `bits`, and with the bytes of value from index `at` on, whatever these are.
#[inline]
pub fn octets_next_piece(
    value: &[u8],
    lower_case: bool,
    place: &mut Place,
    piece: &mut [u8; 8],
    len: &mut usize,
) -> u8 {
    if can_be_place(place, value) {
        *len = give_piece(place, value, lower_case, piece);
        DONE
    } else {
        UNFIT
    }
}
