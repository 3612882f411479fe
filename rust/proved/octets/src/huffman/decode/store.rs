// Erased from crates/octets/src/huffman/decode/store.rt by tools/erase.
//! The stores of decoded bytes: a vector with enough capacity, or a cursor over the caller's bytes
//! (`cursor/writable/cursor_store.rt`).
use rattle_std::{self as std, prelude::*};

/// A store to which a decode adds bytes.
pub(crate) trait Store {
    /// Returns the number of bytes that were added.
    fn count(&self) -> usize;

    /// Adds one byte.
    ///
    /// # Requires
    ///
    /// - `length (held self.old) < room self.old`
    fn put(&mut self, byte: u8);

    /// Adds the `count` least significant bytes of `word`, least significant byte first.
    ///
    /// # Requires
    ///
    /// - `count ≤ 8`
    /// - `length (held self.old) + count ≤ room self.old`
    fn put_word(&mut self, word: u64, count: usize);

    /// Adds the first `count` of `bytes`.
    ///
    /// # Requires
    ///
    /// - `count ≤ 32`
    /// - `length (held self.old) + count ≤ room self.old`
    fn put_first(&mut self, bytes: &[u8; 32], count: usize);
}

impl Store for Vec<u8> {
    #[inline]
    fn count(&self) -> usize {
        self.len()
    }

    #[inline]
    fn put(&mut self, byte: u8) {
        self.push_reserved(byte);
    }

    /// If the capacity is large enough, this pushes eight bytes, and then removes those after the
    /// first `count`.
    #[inline(always)]
    fn put_word(&mut self, word: u64, count: usize) {
        let len = self.len() + count;
        if self.capacity() - self.len() >= 8 {
            push_low(self, word, 8);
            self.truncate(len);
        } else {
            push_low(self, word, count);
        }
    }

    /// If the capacity is large enough, this pushes eight bytes, as `put_word` does.
    #[inline(always)]
    fn put_first(&mut self, bytes: &[u8; 32], count: usize) {
        let len = self.len() + count;
        if count <= 8 && self.capacity() - self.len() >= 8 {
            push_all(self, &bytes[..8]);
            self.truncate(len);
        } else {
            push_all(self, &bytes[..count]);
        }
    }
}

/// Pushes the `count` least significant bytes of `word`, least significant byte first.
///
/// # Requires
///
/// - `length value.old.items + count ≤ vec_capacity value.old`
#[inline(always)]
fn push_low(value: &mut Vec<u8>, word: u64, count: usize) {
    let mut rest = word;
    for _ in 0..count {
        value.push_reserved((rest & 0xff) as u8);
        rest = rest >> 8;
    }
}

/// Pushes all of `bytes`.
///
/// # Requires
///
/// - `length value.old.items + length bytes.now ≤ vec_capacity value.old`
#[inline(always)]
fn push_all(value: &mut Vec<u8>, bytes: &[u8]) {
    for byte in bytes {
        value.push_reserved(*byte);
    }
}
