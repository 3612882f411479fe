// Erased from crates/octets/src/huffman/encode.rt by tools/erase.
//! The encoder, which collects bits in words of 64 bits.
use rattle_std::{self as std, prelude::*};

pub(crate) mod front;
pub(crate) mod target;

use crate::huffman::case::cased_byte;
use crate::huffman::encode::target::{SinkTarget, Target};
use crate::huffman::pending::Pending;
use crate::huffman::words::word_bytes;
use crate::writer::OctetsWriter;

/// Gives the last bytes to the target: one piece of four bytes, if there are at least four, and
/// then single bytes.
#[inline]
fn put_tail<T: Target>(target: &mut T, tail: &[u8]) -> Result<(), T::Error> {
    // This case is written out, since the compiler doesn't inline the loop below.
    if tail.len() == 1 {
        return target.put_piece(tail);
    }
    let mut rest = tail;
    if tail.len() >= 4 {
        target.put_piece(&tail[..4])?;
        rest = &tail[4..];
    }
    for byte in rest {
        target.put_piece(&[*byte])?;
    }
    Ok(())
}

/// Gives the `len` most significant bytes of `word` to the target, most significant byte first. It
/// gives several bytes at once if the target can take them so, and otherwise as `put_tail` does.
///
/// # Requires
///
/// - `1 ≤ len`
/// - `len ≤ 8`
#[inline]
fn put_last<T: Target>(target: &mut T, word: u64, len: usize) -> Result<(), T::Error> {
    if len > 1 && target.put_at_once(word, len) {
        Ok(())
    } else {
        put_tail(target, &word_bytes(word)[..len])
    }
}

/// Gives the Huffman encoding of `v` to the target, in lower case if `to_lower` is true: first
/// words of 64 bits, and then the bits that remain.
///
/// Each iteration pushes two codes. The function is always inlined, so that each of the two cases
/// has a loop of its own. Both public calls are always inlined, so that the cursor stays in
/// registers while a short value is encoded.
#[inline(always)]
pub(crate) fn put_words<T: Target>(target: &mut T, v: &[u8], to_lower: bool) -> Result<(), T::Error> {
    // If the number of bytes is odd, the first byte belongs to no pair. Its code fills no word.
    let odd = v.len() % 2;
    let mut pending = if odd == 1 {
        Pending::of_byte(cased_byte(v[0], to_lower))
    } else {
        Pending::new()
    };
    let (pairs, _) = v[odd..].as_chunks::<2>();
    for pair in pairs {
        let first = cased_byte(pair[0], to_lower);
        let second = cased_byte(pair[1], to_lower);
        if let Some(word) = pending.push_pair(first, second) {
            target.put_piece(&word_bytes(word))?;
        }
    }
    if pending.is_empty() {
        return Ok(());
    }
    put_last(target, pending.last_word(), pending.byte_len())
}

/// Appends the Huffman encoding of `v` to `sink`, in lower case if `LOWER_CASE` is true (RFC 7541,
/// section 5.2): the codes of the bytes, and then fewer than eight one bits up to the end of a
/// byte.
///
/// The sink gets eight bytes in each call. If at least four bytes remain at the end, it gets four
/// of them in one call; it gets each further byte in a call of its own. The encode stops at the
/// first call that fails, and what was appended before remains in the sink.
///
/// ```
/// # use octets_verified::*;
/// let mut bytes = [0, 0, 0];
/// let mut cursor = OctetsMut::with_slice(&mut bytes);
/// put_huffman_encoded::<true, OctetsMut<'_>>(&mut cursor, b"AA")?;
/// assert_eq!(cursor.buf(), [0x18, 0xff, 0]);
/// # Ok::<(), Box<dyn core::error::Error>>(())
/// ```
#[inline(always)]
pub fn put_huffman_encoded<const LOWER_CASE: bool, W: OctetsWriter>(
    sink: &mut W,
    v: &[u8],
) -> Result<(), W::Error> {
    let mut lent = SinkTarget(sink);
    let result = put_words(&mut lent, v, LOWER_CASE);
    // This ends the loan, so that the proof knows the last value of the sink.
    let SinkTarget(_) = lent;
    result
}
