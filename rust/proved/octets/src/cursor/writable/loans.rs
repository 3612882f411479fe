// Erased from crates/octets/src/cursor/writable/loans.rt by tools/erase.
//! Calls that lend ranges of the buffer for writing.
//!
//! To lend bytes is to return a mutable borrow of them, and a loan is such a borrow. The cursor
//! can't be used until the loan ends. Then the lent range contains the bytes that were last written
//! there, all other bytes are unchanged, and the offset is where the call left it.
use rattle_std::{self as std, prelude::*};

mod followed;
mod parts;

use crate::cursor::writable::OctetsMut;
use crate::cursor::writable::loans::parts::Part;
use crate::error::{BufferTooShortError, Result};

/// Returns a cursor over the slice, at its start, if there is a slice.
#[inline(always)]
fn view_of(lent: Result<&mut [u8]>) -> Result<OctetsMut<'_>> {
    match lent {
        Ok(part) => Ok(OctetsMut::with_slice(part)),
        Err(short) => Err(short),
    }
}

/// Splits the bytes at position `off`, if there are at least `off` bytes.
#[inline(always)]
fn halves(whole: &mut [u8], off: usize) -> Option<(&mut [u8], &mut [u8])> {
    whole.split_at_mut_checked(off)
}

/// Returns a cursor over each of the two slices, at its start, if there are two slices.
#[inline(always)]
fn views_of<'b>(
    halves: Option<(&'b mut [u8], &'b mut [u8])>,
) -> Result<(OctetsMut<'b>, OctetsMut<'b>)> {
    match halves {
        Some((front, back)) => Ok((OctetsMut::with_slice(front), OctetsMut::with_slice(back))),
        None => Err(BufferTooShortError),
    }
}

impl<'a> OctetsMut<'a> {
    /// Lends the range, if there is one, and leaves the offset where it is.
    ///
    /// # Requires
    ///
    /// - `IfOk part (λ p. IsWithin p (bytes self.old))`
    #[inline(always)]
    fn lend_part(&mut self, part: Result<Part>) -> Result<&mut [u8]>// The proof is hand-written, so any edit of the body breaks it: see CONTRIBUTING.md.
    {
        match part {
            Ok(part) => Ok(self.lend_at(part.from, part.len)),
            Err(short) => Err(short),
        }
    }

    /// Lends the range as a cursor, if there is one, and leaves the offset where it is.
    ///
    /// # Requires
    ///
    /// - `IfOk part (λ p. IsWithin p (bytes self.old))`
    #[inline(always)]
    fn lend_view(&mut self, part: Result<Part>) -> Result<OctetsMut<'_>>// The proof is hand-written, so any edit of the body breaks it: see CONTRIBUTING.md.
    {
        view_of(self.lend_part(part))
    }

    /// Lends the next `len` bytes for writing, and leaves the offset unchanged.
    ///
    /// It fails if fewer than `len` bytes remain.
    ///
    /// ```
    /// # use octets_verified::*;
    /// let mut bytes = [1, 2, 3];
    /// let mut cursor = OctetsMut::with_slice(&mut bytes);
    /// cursor.slice(2)?[0] = 9;
    /// assert_eq!(cursor.get_u8()?, 9);
    /// # Ok::<(), Box<dyn core::error::Error>>(())
    /// ```
    #[inline(always)]
    pub fn slice(&mut self, len: usize) -> Result<&mut [u8]>// The proof is hand-written, so any edit of the body breaks it: see CONTRIBUTING.md.
    {
        let part = self.part_ahead(len);
        self.lend_part(part)
    }

    /// Lends the last `len` bytes of the buffer for writing, and leaves the offset unchanged.
    ///
    /// It fails if fewer than `len` bytes remain from the offset on.
    ///
    /// ```
    /// # use octets_verified::*;
    /// let mut bytes = [1, 2, 3];
    /// let mut cursor = OctetsMut::with_slice(&mut bytes);
    /// cursor.slice_last(1)?[0] = 9;
    /// assert_eq!(cursor.buf(), [1, 2, 9]);
    /// # Ok::<(), Box<dyn core::error::Error>>(())
    /// ```
    #[inline(always)]
    pub fn slice_last(&mut self, len: usize) -> Result<&mut [u8]>// The proof is hand-written, so any edit of the body breaks it: see CONTRIBUTING.md.
    {
        let part = self.part_at_end(len);
        self.lend_part(part)
    }

    /// Returns a cursor for writing over the next `len` bytes, and advances the offset past them.
    ///
    /// It fails if fewer than `len` bytes remain. Then the offset is unchanged.
    ///
    /// ```
    /// # use octets_verified::*;
    /// let mut bytes = [0, 0, 0];
    /// let mut cursor = OctetsMut::with_slice(&mut bytes);
    /// cursor.get_bytes_mut(2)?.put_u16(0x0102)?;
    /// assert_eq!(cursor.buf(), [1, 2, 0]);
    /// assert_eq!(cursor.off(), 2);
    /// # Ok::<(), Box<dyn core::error::Error>>(())
    /// ```
    #[inline(always)]
    pub fn get_bytes_mut(&mut self, len: usize) -> Result<OctetsMut<'_>>// The proof is hand-written, so any edit of the body breaks it: see CONTRIBUTING.md.
    {
        let part = self.part_passed(len);
        self.lend_view(part)
    }

    /// Returns a cursor for writing over the next `len` bytes, and leaves the offset unchanged.
    ///
    /// It fails if fewer than `len` bytes remain.
    ///
    /// ```
    /// # use octets_verified::*;
    /// let mut bytes = [0, 0, 0];
    /// let mut cursor = OctetsMut::with_slice(&mut bytes);
    /// cursor.peek_bytes_mut(2)?.put_u16(0x0102)?;
    /// assert_eq!(cursor.get_u16()?, 0x0102);
    /// # Ok::<(), Box<dyn core::error::Error>>(())
    /// ```
    #[inline(always)]
    pub fn peek_bytes_mut(&mut self, len: usize) -> Result<OctetsMut<'_>>// The proof is hand-written, so any edit of the body breaks it: see CONTRIBUTING.md.
    {
        let ahead = self.part_ahead(len);
        self.lend_view(ahead)
    }

    /// Returns two cursors for writing: one over the first `off` bytes of the whole buffer, and one
    /// over the bytes after them. The offset is ignored and unchanged.
    ///
    /// It fails if the buffer has fewer than `off` bytes.
    ///
    /// ```
    /// # use octets_verified::*;
    /// let mut bytes = [1, 2, 3];
    /// let mut cursor = OctetsMut::with_slice(&mut bytes);
    /// let (left, right) = cursor.split_at(1)?;
    /// assert_eq!(left.buf(), [1]);
    /// assert_eq!(right.buf(), [2, 3]);
    /// # Ok::<(), Box<dyn core::error::Error>>(())
    /// ```
    #[inline(always)]
    pub fn split_at(&mut self, off: usize) -> Result<(OctetsMut<'_>, OctetsMut<'_>)>// The proof is hand-written, so any edit of the body breaks it: see CONTRIBUTING.md.
    {
        let parts = halves(&mut *self.buf, off);
        views_of(parts)
    }

    /// Writes a number of one byte, advances the offset past it, and returns a mutable slice of the
    /// written byte.
    ///
    /// It fails if no byte remains. Then nothing is written, and the offset is unchanged.
    ///
    /// ```
    /// # use octets_verified::*;
    /// let mut bytes = [0, 0];
    /// let mut cursor = OctetsMut::with_slice(&mut bytes);
    /// cursor.put_u8(7)?;
    /// assert_eq!(cursor.buf(), [7, 0]);
    /// # Ok::<(), Box<dyn core::error::Error>>(())
    /// ```
    #[inline(always)]
    pub fn put_u8(&mut self, v: u8) -> Result<&mut [u8]>// The proof is hand-written, so any edit of the body breaks it: see CONTRIBUTING.md.
    {
        let part = self.part_of_u8(v);
        self.lend_part(part)
    }

    /// Writes a number of two bytes, most significant byte first, advances the offset past it, and
    /// returns a mutable slice of the written bytes.
    ///
    /// It fails if fewer than two bytes remain. Then nothing is written, and the offset is
    /// unchanged.
    ///
    /// ```
    /// # use octets_verified::*;
    /// let mut bytes = [0, 0, 0];
    /// let mut cursor = OctetsMut::with_slice(&mut bytes);
    /// cursor.put_u16(0x0102)?[1] = 9;
    /// assert_eq!(cursor.buf(), [1, 9, 0]);
    /// # Ok::<(), Box<dyn core::error::Error>>(())
    /// ```
    #[inline(always)]
    pub fn put_u16(&mut self, v: u16) -> Result<&mut [u8]>// The proof is hand-written, so any edit of the body breaks it: see CONTRIBUTING.md.
    {
        let part = self.part_of_u16(v);
        self.lend_part(part)
    }

    /// Writes the least significant three bytes of a number, most significant byte first, advances
    /// the offset past them, and returns a mutable slice of the written bytes.
    ///
    /// It fails if fewer than three bytes remain. Then nothing is written, and the offset is
    /// unchanged.
    ///
    /// ```
    /// # use octets_verified::*;
    /// let mut bytes = [0, 0, 0];
    /// let mut cursor = OctetsMut::with_slice(&mut bytes);
    /// cursor.put_u24(0x09010203)?;
    /// assert_eq!(cursor.buf(), [1, 2, 3]);
    /// # Ok::<(), Box<dyn core::error::Error>>(())
    /// ```
    #[inline(always)]
    pub fn put_u24(&mut self, v: u32) -> Result<&mut [u8]>// The proof is hand-written, so any edit of the body breaks it: see CONTRIBUTING.md.
    {
        let part = self.part_of_u24(v);
        self.lend_part(part)
    }

    /// Writes a number of four bytes, most significant byte first, advances the offset past it, and
    /// returns a mutable slice of the written bytes.
    ///
    /// It fails if fewer than four bytes remain. Then nothing is written, and the offset is
    /// unchanged.
    ///
    /// ```
    /// # use octets_verified::*;
    /// let mut bytes = [0, 0, 0, 0];
    /// let mut cursor = OctetsMut::with_slice(&mut bytes);
    /// cursor.put_u32(0x01020304)?;
    /// assert_eq!(cursor.buf(), [1, 2, 3, 4]);
    /// # Ok::<(), Box<dyn core::error::Error>>(())
    /// ```
    #[inline(always)]
    pub fn put_u32(&mut self, v: u32) -> Result<&mut [u8]>// The proof is hand-written, so any edit of the body breaks it: see CONTRIBUTING.md.
    {
        let part = self.part_of_u32(v);
        self.lend_part(part)
    }

    /// Writes a number of eight bytes, most significant byte first, advances the offset past it,
    /// and returns a mutable slice of the written bytes.
    ///
    /// It fails if fewer than eight bytes remain. Then nothing is written, and the offset is
    /// unchanged.
    ///
    /// ```
    /// # use octets_verified::*;
    /// let mut bytes = [9, 9, 9, 9, 9, 9, 9, 9];
    /// let mut cursor = OctetsMut::with_slice(&mut bytes);
    /// cursor.put_u64(0x0102)?;
    /// assert_eq!(cursor.buf(), [0, 0, 0, 0, 0, 0, 1, 2]);
    /// # Ok::<(), Box<dyn core::error::Error>>(())
    /// ```
    #[inline(always)]
    pub fn put_u64(&mut self, v: u64) -> Result<&mut [u8]>// The proof is hand-written, so any edit of the body breaks it: see CONTRIBUTING.md.
    {
        let part = self.part_of_u64(v);
        self.lend_part(part)
    }

    /// Writes `v` as a varint of the least width that holds it (RFC 9000, section 16), moves the
    /// offset past it, and lends its bytes for writing. `v` must be below 2 to the power 62.
    ///
    /// It fails if fewer bytes remain than that width, and then writes nothing.
    ///
    /// ```
    /// # use octets_verified::*;
    /// let mut bytes = [0, 0, 0];
    /// let mut cursor = OctetsMut::with_slice(&mut bytes);
    /// assert_eq!(cursor.put_varint(15293)?.len(), 2);
    /// assert_eq!(cursor.buf(), [0x7b, 0xbd, 0]);
    /// # Ok::<(), Box<dyn core::error::Error>>(())
    /// ```
    ///
    /// # Requires
    ///
    /// - `v < 2 ^ 62`
    #[inline(always)]
    #[cfg_attr(feature = "checked", track_caller)]
    pub fn put_varint(&mut self, v: u64) -> Result<&mut [u8]>// The proof is hand-written, so any edit of the body breaks it: see CONTRIBUTING.md.
    {
        #[cfg(feature = "checked")]
        ::core::assert!((v as u128) < (1u128 << 62), "`put_varint` requires `v < 2 ^ 62`");
        let part = self.part_of_varint(v);
        self.lend_part(part)
    }

    /// Writes `v` as a varint of `len` bytes (RFC 9000, section 16), moves the offset past it, and
    /// lends its bytes for writing. `len` must be 1, 2, 4 or 8, and `v` must be below 2 to the
    /// power `8 * len - 2`. `varint_fits` checks both conditions.
    ///
    /// It fails if fewer than `len` bytes remain, and then writes nothing.
    ///
    /// ```
    /// # use octets_verified::*;
    /// let mut bytes = [0, 0, 0];
    /// let mut cursor = OctetsMut::with_slice(&mut bytes);
    /// cursor.put_varint_with_len(37, 2)?;
    /// assert_eq!(cursor.buf(), [0x40, 0x25, 0]);
    /// # Ok::<(), Box<dyn core::error::Error>>(())
    /// ```
    ///
    /// # Requires
    ///
    /// - `IsWidth len`
    /// - `v < 2 ^ (8 * len - 2)`
    #[inline(always)]
    #[cfg_attr(feature = "checked", track_caller)]
    pub fn put_varint_with_len(&mut self, v: u64, len: usize) -> Result<&mut [u8]>// The proof is hand-written, so any edit of the body breaks it: see CONTRIBUTING.md.
    {
        #[cfg(feature = "checked")]
        ::core::assert!(matches!(len, 1 | 2 | 4 | 8), "`put_varint_with_len` requires `IsWidth len`");
        #[cfg(feature = "checked")]
        ::core::assert!((v as u128) < (if let exponent @ 0..=126 = (8u128.saturating_mul((len as u128)).saturating_sub(2u128)) { 1u128 << exponent } else { u128::MAX }), "`put_varint_with_len` requires `v < 2 ^ (8 * len - 2)`");
        let part = self.part_of_varint_with_len(v, len);
        self.lend_part(part)
    }

    /// Writes the lowest `len` bytes of `v`, with the mark of the width over the top two bits, moves
    /// the offset past them, and lends these bytes for writing. `len` must be 1, 2, 4 or 8.
    ///
    /// ```
    /// # use octets_verified::*;
    /// let mut bytes = [0, 0, 0];
    /// let mut cursor = OctetsMut::with_slice(&mut bytes);
    /// cursor.put_marked(0x123456, 2)?;
    /// assert_eq!(cursor.buf(), [0x74, 0x56, 0]);
    /// # Ok::<(), Box<dyn core::error::Error>>(())
    /// ```
    ///
    /// # Requires
    ///
    /// - `IsWidth len`
    #[inline(always)]
    #[cfg_attr(feature = "checked", track_caller)]
    pub fn put_marked(&mut self, v: u64, len: usize) -> Result<&mut [u8]>// The proof is hand-written, so any edit of the body breaks it: see CONTRIBUTING.md.
    {
        #[cfg(feature = "checked")]
        ::core::assert!(matches!(len, 1 | 2 | 4 | 8), "`put_marked` requires `IsWidth len`");
        let part = self.part_of_marked(v, len);
        self.lend_part(part)
    }
}
