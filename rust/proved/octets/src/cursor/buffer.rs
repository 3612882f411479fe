// Erased from crates/octets/src/cursor/buffer.rt by tools/erase.
//! The traits of a cursor's buffer: a cursor can read a buffer with `Bytes`, and also write one
//! with `Buffer`. To lend bytes for writing means to return a mutable borrow of them.
use rattle_std::{self as std, prelude::*};

/// A buffer that a cursor can read: it has fewer than 2 to the power 63 bytes, and exposes all of
/// them as a slice.
pub trait Bytes {
    /// Returns the number of bytes.
    ///
    /// ```
    /// # use octets_verified::*;
    /// let mut bytes = [1, 2, 3];
    /// let buffer = bytes.as_mut_slice();
    /// assert_eq!(Bytes::len(&buffer), 3);
    /// ```
    fn len(&self) -> usize;

    /// Returns all bytes.
    ///
    /// ```
    /// # use octets_verified::*;
    /// let mut bytes = [1, 2, 3];
    /// let buffer = bytes.as_mut_slice();
    /// assert_eq!(Bytes::as_slice(&buffer), [1, 2, 3]);
    /// ```
    fn as_slice(&self) -> &[u8];
}

/// A buffer that a cursor can also write: it lends ranges of its bytes for writing.
pub trait Buffer: Bytes {
    /// Lends the `len` bytes from position `from` on for writing. `from + len` must be at most the
    /// length of the buffer. When the loan ends, the buffer contains what was written into that
    /// range, and all other bytes are unchanged.
    ///
    /// ```
    /// # use octets_verified::*;
    /// let mut bytes = [1, 2, 3];
    /// let mut buffer = bytes.as_mut_slice();
    /// Buffer::part_mut(&mut buffer, 1, 2)[0] = 9;
    /// assert_eq!(bytes, [1, 9, 3]);
    /// ```
    ///
    /// # Requires
    ///
    /// - `from + len ≤ length (Self.bytes self.old)`
    fn part_mut(&mut self, from: usize, len: usize) -> &mut [u8];
}

impl<'a> Bytes for &'a [u8] {
    #[inline]
    fn len(&self) -> usize {
        (**self).len()
    }

    #[inline]
    fn as_slice(&self) -> &[u8] {
        *self
    }
}

impl<'a> Bytes for &'a mut [u8] {
    #[inline]
    fn len(&self) -> usize {
        (**self).len()
    }

    #[inline]
    fn as_slice(&self) -> &[u8] {
        &**self
    }
}

impl<'a> Buffer for &'a mut [u8] {
    // The proof is hand-written, so any edit of the body breaks it: see CONTRIBUTING.md.
    #[inline]
    fn part_mut(&mut self, from: usize, len: usize) -> &mut [u8] {
        &mut self[from..][..len]
    }
}
