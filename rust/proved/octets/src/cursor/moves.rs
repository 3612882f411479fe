// Erased from crates/octets/src/cursor/moves.rt by tools/erase.
//! Calls that move the offset.
use rattle_std::{self as std, prelude::*};

use crate::cursor::Cursor;
use crate::cursor::buffer::Bytes;
use crate::error::{BufferTooShortError, Result};

impl<B: Bytes> Cursor<B> {
    /// Moves the offset forward by `len` bytes, which must remain.
    ///
    /// # Requires
    ///
    /// - `len ≤ length (rest self.old)`
    #[inline(always)]
    pub(crate) fn advance(&mut self, len: usize) {
        // The proof needs this call: its clause `small` bounds the sum below.
        let _whole = self.buf.len();
        self.off += len;
    }

    /// Moves the offset past a varint of `width` bytes, which must remain. Each width has a case of
    /// its own, so that the compiler adds a constant.
    ///
    /// # Requires
    ///
    /// - `width ≤ length (rest self.old)`
    #[inline(always)]
    pub(crate) fn advance_by_width(&mut self, width: usize) {
        match width {
            1 => self.advance(1),
            2 => self.advance(2),
            4 => self.advance(4),
            _ => self.advance(width),
        }
    }

    /// Moves the offset back by `len` bytes.
    ///
    /// It fails if the offset is less than `len`. Then the offset is unchanged.
    ///
    /// ```
    /// # use octets_verified::*;
    /// let mut cursor = Octets::with_slice(&[1, 2, 3]);
    /// cursor.skip(2)?;
    /// cursor.rewind(1)?;
    /// assert_eq!(cursor.off(), 1);
    /// assert_eq!(cursor.rewind(2), Err(BufferTooShortError));
    /// # Ok::<(), Box<dyn core::error::Error>>(())
    /// ```
    #[inline(always)]
    pub fn rewind(&mut self, len: usize) -> Result<()> {
        if self.off < len {
            return Err(BufferTooShortError);
        }
        self.off -= len;
        Ok(())
    }

    /// Advances the offset by `skip` bytes.
    ///
    /// It fails if fewer than `skip` bytes remain. Then the offset is unchanged.
    ///
    /// ```
    /// # use octets_verified::*;
    /// let mut cursor = Octets::with_slice(&[1, 2, 3]);
    /// cursor.skip(2)?;
    /// assert_eq!(cursor.off(), 2);
    /// assert_eq!(cursor.skip(2), Err(BufferTooShortError));
    /// # Ok::<(), Box<dyn core::error::Error>>(())
    /// ```
    #[inline(always)]
    pub fn skip(&mut self, skip: usize) -> Result<()> {
        if skip > self.cap() {
            return Err(BufferTooShortError);
        }
        self.advance(skip);
        Ok(())
    }
}
