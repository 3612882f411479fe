// Erased from crates/octets/src/cursor/writable/loans/followed.rt by tools/erase.
//! Calls that lend a plain slice, so that a caller's proof knows what the buffer contains after the
//! loan.
//!
//! The checker needs no hand-written proof for a loan if the call returns a plain `&mut [u8]`, but
//! it does if the call returns it in a `Result`. So these calls require that enough bytes remain,
//! which the caller can check with `cap`.
use rattle_std::{self as std, prelude::*};

use crate::cursor::Cursor;
use crate::cursor::buffer::Buffer;

impl<B: Buffer> Cursor<B> {
    /// Lends the `len` bytes from position `from` on for writing, and leaves the offset where it
    /// is.
    ///
    /// # Requires
    ///
    /// - `from + len ≤ length (bytes self.old)`
    #[inline(always)]
    pub(crate) fn lend_at(&mut self, from: usize, len: usize) -> &mut [u8] {
        self.buf.part_mut(from, len)
    }

    /// Lends all bytes from the offset on for writing, and leaves the offset where it is.
    ///
    /// ```
    /// # use octets_verified::*;
    /// let mut bytes = [1, 2, 3];
    /// let mut cursor = OctetsMut::with_slice(&mut bytes);
    /// cursor.skip(1)?;
    /// cursor.as_mut()[0] = 9;
    /// assert_eq!(cursor.buf(), [1, 9, 3]);
    /// # Ok::<(), Box<dyn core::error::Error>>(())
    /// ```
    #[inline(always)]
    pub fn as_mut(&mut self) -> &mut [u8] {
        let len = self.cap();
        let start = self.off;
        self.lend_at(start, len)
    }

    /// Lends the next `len` bytes for writing, and moves the offset past them.
    ///
    /// This is `slice` followed by `skip`, for a caller that knows that `len` bytes remain.
    ///
    /// ```
    /// # use octets_verified::*;
    /// let mut bytes = [0, 0, 0];
    /// let mut cursor = OctetsMut::with_slice(&mut bytes);
    /// cursor.lend(2).copy_from_slice(b"ab");
    /// assert_eq!(cursor.buf(), [97, 98, 0]);
    /// assert_eq!(cursor.off(), 2);
    /// ```
    ///
    /// # Requires
    ///
    /// - `len ≤ length (rest self.old)`
    #[inline(always)]
    #[cfg_attr(feature = "checked", track_caller)]
    pub fn lend(&mut self, len: usize) -> &mut [u8] {
        #[cfg(feature = "checked")]
        ::core::assert!((len as u128) <= (self.cap() as u128), "`lend` requires `len ≤ length (rest self.old)`");
        // The proof needs this call: its clause `small` bounds the sum below.
        let _cap = self.cap();
        let from = self.off;
        self.off = from + len;
        self.lend_at(from, len)
    }

    /// Lends the next `len` bytes for writing, and leaves the offset where it is.
    ///
    /// This is `slice`, for a caller that knows that `len` bytes remain.
    ///
    /// ```
    /// # use octets_verified::*;
    /// let mut bytes = [0, 0, 0];
    /// let mut cursor = OctetsMut::with_slice(&mut bytes);
    /// cursor.lend_ahead(2).copy_from_slice(b"ab");
    /// assert_eq!(cursor.get_u8()?, 97);
    /// # Ok::<(), Box<dyn core::error::Error>>(())
    /// ```
    ///
    /// # Requires
    ///
    /// - `len ≤ length (rest self.old)`
    #[inline(always)]
    #[cfg_attr(feature = "checked", track_caller)]
    pub fn lend_ahead(&mut self, len: usize) -> &mut [u8] {
        #[cfg(feature = "checked")]
        ::core::assert!((len as u128) <= (self.cap() as u128), "`lend_ahead` requires `len ≤ length (rest self.old)`");
        let ahead = self.off;
        self.lend_at(ahead, len)
    }

    /// Lends the last `len` bytes of the whole buffer for writing, and leaves the offset where it
    /// is.
    ///
    /// `len` must be at most the length of the buffer. `slice_last` does the same, but also needs
    /// `len` bytes from the offset on.
    ///
    /// ```
    /// # use octets_verified::*;
    /// let mut bytes = [0, 0, 0];
    /// let mut cursor = OctetsMut::with_slice(&mut bytes);
    /// cursor.lend_last(2).copy_from_slice(b"ab");
    /// assert_eq!(cursor.buf(), [0, 97, 98]);
    /// ```
    ///
    /// # Requires
    ///
    /// - `len ≤ length (bytes self.old)`
    #[inline(always)]
    #[cfg_attr(feature = "checked", track_caller)]
    pub fn lend_last(&mut self, len: usize) -> &mut [u8] {
        #[cfg(feature = "checked")]
        ::core::assert!((len as u128) <= (self.len() as u128), "`lend_last` requires `len ≤ length (bytes self.old)`");
        let from = self.len() - len;
        self.lend_at(from, len)
    }

    /// Lends all bytes of the buffer for writing, including those before the offset, and leaves the
    /// offset where it is.
    ///
    /// `cursor.lend_whole().split_at_mut(off)` lends the bytes on both sides of a position, as
    /// `split_at` does.
    ///
    /// ```
    /// # use octets_verified::*;
    /// let mut bytes = [0, 0];
    /// let mut cursor = OctetsMut::with_slice(&mut bytes);
    /// cursor.lend_whole().copy_from_slice(b"ab");
    /// assert_eq!(cursor.get_u8()?, 97);
    /// # Ok::<(), Box<dyn core::error::Error>>(())
    /// ```
    #[inline(always)]
    pub fn lend_whole(&mut self) -> &mut [u8] {
        let len = self.len();
        self.lend_at(0, len)
    }
}
