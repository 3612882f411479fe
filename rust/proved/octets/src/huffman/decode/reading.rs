// Erased from crates/octets/src/huffman/decode/reading.rt by tools/erase.
//! The decode of an encoding under a limit. Windows of 64 bits read several codes at once, and the
//! automaton reads what remains, 4 bits at a time.
use rattle_std::{self as std, prelude::*};

use crate::huffman::decode::store::Store;
use crate::huffman::decode::window_loop::read_whole;
use octets_code::{State, Step, Steps};

/// How many bytes were passed before a decode failed.
pub(crate) struct Refusal {
    pub(crate) passed: usize,
}

/// Encodings of fewer bytes are read only by the automaton, since starting with windows takes
/// longer.
const WINDOWED: usize = 3;

/// Appends the value of the encoding `text` to `value`, which is empty at the call.
///
/// # Requires
///
/// - `S.held value.old ≡ []`
/// - `min (2 * length text.now) max_len ≤ S.room value.old`
/// - `steps.old + 2 * length text.now < 2 ^ 128`
#[inline(always)]
pub(crate) fn read_text<S: Store>(
    text: &[u8],
    value: &mut S,
    max_len: usize,
    steps: &mut Steps,
) -> Result<(), Refusal> {
    if text.len() < WINDOWED {
        let state = read_part(text, 0, State::root(), value, max_len, steps)?;
        return end_text(text, state);
    }
    let whole = read_whole(text, value, max_len);
    if whole.filled {
        steps.spare(2 * text.len());
        return Ok(());
    }
    read_rest(text, whole.at, value, max_len, steps)
}

/// Reads the encoding from the bit `at` to its end, 4 bits at a time. A code ends just before the
/// bit `at`. Each 4 bits before `at` count as a step.
///
/// # Requires
///
/// - `at ≤ 8 * length text.now`
/// - `AreCut text.now at (S.held value.old)`
/// - `AreBytes (S.held value.old)`
/// - `length (S.held value.old) ≤ max_len`
/// - `min (2 * length text.now) max_len ≤ S.room value.old`
/// - `steps.old + 2 * length text.now < 2 ^ 128`
#[inline]
pub(super) fn read_rest<S: Store>(
    text: &[u8],
    at: usize,
    value: &mut S,
    max_len: usize,
    steps: &mut Steps,
) -> Result<(), Refusal> {
    let halves = at.div_ceil(4);
    steps.spare(halves);
    let front = front_state(text, at);
    let Some(state) = read_half(text, halves, front, value, max_len, steps) else {
        return Err(Refusal {
            passed: halves / 2 + 1,
        });
    };
    let state = read_part(text, halves.div_ceil(2), state, value, max_len, steps)?;
    end_text(text, state)
}

/// Returns the state after the bits from `at` to the end of the half byte that contains it.
///
/// # Requires
///
/// - `at ≤ 8 * length text.now`
#[inline]
pub(super) fn front_state(text: &[u8], at: usize) -> State {
    let past = at % 4;
    if past == 0 {
        return State::root();
    }
    let byte = text[at / 8];
    let half = if at % 8 < 4 { byte >> 4 } else { byte & 0xf };
    State::of_front((4 - past) as u8, half & ((1 << (4 - past)) - 1))
}

/// Reads the lower half of a byte whose higher half was already read, which is the case if the
/// number `halves` of half bytes is odd. It returns `None` if a symbol in it makes the decode fail.
///
/// # Requires
///
/// - `halves ≤ 2 * length text.now`
/// - `IsRead (take (4 * halves) (bits text.now)) max_len (S.held value.old) state`
/// - `min max_len (length (S.held value.old) + 1) ≤ S.room value.old ⊎ (halves % 2 ≡ 0)`
/// - `steps.old + 1 < 2 ^ 128 ⊎ (halves % 2 ≡ 0)`
#[inline]
fn read_half<S: Store>(
    text: &[u8],
    halves: usize,
    state: State,
    value: &mut S,
    max_len: usize,
    steps: &mut Steps,
) -> Option<State> {
    if halves % 2 == 0 {
        return Some(state);
    }
    read_nibble(state, text[halves / 2] & 0xf, value, max_len, steps)
}

/// Returns `Ok` if an encoding may end in `state`, in which `text` was read to its end.
#[inline]
pub(super) fn end_text(text: &[u8], state: State) -> Result<(), Refusal> {
    if state.is_fill() {
        Ok(())
    } else {
        Err(Refusal { passed: text.len() })
    }
}

/// Reads the encoding from the byte `from` to its end. It is inlined so that a short decode keeps
/// the count of steps in registers.
///
/// # Requires
///
/// - `IsRead (bits (take from text.now)) max_len (S.held value.old) state`
/// - `from ≤ length text.now`
/// - `min max_len (length (S.held value.old) + 2 * (length text.now - from)) ≤ S.room value.old`
/// - `steps.old + 2 * (length text.now - from) < 2 ^ 128`
#[inline(always)]
fn read_part<S: Store>(
    text: &[u8],
    from: usize,
    state: State,
    value: &mut S,
    max_len: usize,
    steps: &mut Steps,
) -> Result<State, Refusal> {
    let mut state = state;
    for (i, byte) in text[from..].iter().enumerate() {
        match read_halves(state, *byte, value, max_len, steps) {
            Some(next) => state = next,
            None => {
                return Err(Refusal {
                    passed: from + i + 1,
                });
            }
        }
    }
    Ok(state)
}

/// Reads the two halves of `byte`. It returns `None` if a symbol in it makes the decode fail.
///
/// # Requires
///
/// - `IsOpen state`
/// - `AreBytes (S.held value.old)`
/// - `length (S.held value.old) ≤ max_len`
/// - `min max_len (length (S.held value.old) + 2) ≤ S.room value.old`
/// - `steps.old + 2 < 2 ^ 128`
#[inline]
fn read_halves<S: Store>(
    state: State,
    byte: u8,
    value: &mut S,
    max_len: usize,
    steps: &mut Steps,
) -> Option<State> {
    let half = read_nibble(state, byte >> 4, value, max_len, steps)?;
    read_nibble(half, byte & 0xf, value, max_len, steps)
}

/// Reads half a byte. It returns `None` if a symbol in it makes the decode fail.
///
/// # Requires
///
/// - `nibble < 16`
/// - `IsOpen state`
/// - `AreBytes (S.held value.old)`
/// - `length (S.held value.old) ≤ max_len`
/// - `min max_len (length (S.held value.old) + 1) ≤ S.room value.old`
/// - `steps.old + 1 < 2 ^ 128`
#[inline]
fn read_nibble<S: Store>(
    state: State,
    nibble: u8,
    value: &mut S,
    max_len: usize,
    steps: &mut Steps,
) -> Option<State> {
    match state.step(nibble, steps) {
        Step::On(next) => Some(next),
        Step::Byte(next, byte) => {
            if value.count() == max_len {
                return None;
            }
            value.put(byte);
            Some(next)
        }
        Step::End => None,
    }
}
