// Erased from crates/octets/src/copies.rt by tools/erase.
//! Copies of slices. Short copies are made without a call.
use rattle_std::{self as std, prelude::*};

/// Overwrites the first `N` bytes. `copy_from_slice` would be a call if the program is built with
/// `lto = "off"`; an array is copied without one.
///
/// # Requires
///
/// - `N ≤ length to.old`
#[inline(always)]
pub(crate) fn put_first<const N: usize>(to: &mut [u8], bytes: &[u8; N]) {
    if let Some(first) = to.first_chunk_mut::<N>() {
        *first = *bytes;
    }
}

/// Overwrites the last `N` bytes.
///
/// # Requires
///
/// - `N ≤ length to.old`
#[inline(always)]
pub(crate) fn put_last<const N: usize>(to: &mut [u8], bytes: &[u8; N]) {
    if let Some(last) = to.last_chunk_mut::<N>() {
        *last = *bytes;
    }
}

/// Copies the first `N` bytes and the last `N` bytes. The two ranges overlap if there are fewer
/// than `2 * N` bytes. Up to 8 bytes both ranges are read before either is written, so that the
/// bytes that they share are written once. Longer ranges are copied one after the other, so that
/// neither is kept on the stack.
///
/// # Requires
///
/// - `length to.old ≡ length from.now`
/// - `N ≤ length from.now`
/// - `length from.now ≤ 2 * N`
#[inline(always)]
fn copy_ends<const N: usize>(to: &mut [u8], from: &[u8]) {
    let (Some(first), Some(last)) = (from.first_chunk::<N>(), from.last_chunk::<N>()) else {
        return;
    };
    if N > 8 {
        put_first(to, first);
        put_last(to, last);
    } else {
        let (first, last) = (*first, *last);
        put_first(to, &first);
        put_last(to, &last);
    }
}

/// Copies without being inlined, so that its callers keep their registers.
///
/// # Requires
///
/// - `length to.old ≡ length from.now`
#[inline(never)]
fn copy_many(to: &mut [u8], from: &[u8]) {
    to.copy_from_slice(from);
}

/// Copies at most 8 bytes, as `copy` does. Lengths from 4 to 8 share one case, so that a sequence
/// of copies of such lengths always takes the same branch.
///
/// # Requires
///
/// - `length to.old ≡ length from.now`
/// - `length from.now ≤ 8`
#[inline(always)]
pub(crate) fn copy_few(to: &mut [u8], from: &[u8]) {
    match from.len() {
        0 => {}
        1 => copy_ends::<1>(to, from),
        2..4 => copy_ends::<2>(to, from),
        _ => copy_ends::<4>(to, from),
    }
}

/// Copies all of `from` over `to`, which has the same length.
///
/// # Requires
///
/// - `length to.old ≡ length from.now`
#[inline(always)]
pub(crate) fn copy(to: &mut [u8], from: &[u8]) {
    // This slice tells rustc that both lengths are equal, so that it leaves out the bounds checks
    // below.
    let to = &mut to[..from.len()];
    match from.len() {
        0..=8 => copy_few(to, from),
        9..16 => copy_ends::<8>(to, from),
        16..32 => copy_ends::<16>(to, from),
        32..=64 => copy_ends::<32>(to, from),
        _ => copy_many(to, from),
    }
}
