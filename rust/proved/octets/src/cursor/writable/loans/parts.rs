// Erased from crates/octets/src/cursor/writable/loans/parts.rt by tools/erase.
//! Functions that say which range of the buffer a call is to lend.
//!
//! Each function does what a call of `loans.rt` does before its loan: it moves the offset or
//! writes. It returns the range, which `lend_part` then lends.
use rattle_std::{self as std, prelude::*};

use crate::cursor::writable::OctetsMut;
use crate::error::{BufferTooShortError, Result};
use crate::varint::varint_len;

/// The range of a buffer from position `from` on that has `len` bytes.
pub(crate) struct Part {
    pub(crate) from: usize,
    pub(crate) len: usize,
}

impl<'a> OctetsMut<'a> {
    /// Returns the range of the next `len` bytes, and leaves the offset where it is.
    #[inline(always)]
    pub(crate) fn part_ahead(&mut self, len: usize) -> Result<Part> {
        if len > self.cap() {
            return Err(BufferTooShortError);
        }
        let here = self.off;
        Ok(Part { from: here, len })
    }

    /// Returns the range of the next `len` bytes, and moves the offset past them.
    #[inline(always)]
    pub(crate) fn part_passed(&mut self, len: usize) -> Result<Part> {
        let part = self.part_ahead(len)?;
        self.off += len;
        Ok(part)
    }

    /// Returns the range of the last `len` bytes of the whole buffer, and leaves the offset where
    /// it is.
    #[inline(always)]
    pub(crate) fn part_at_end(&mut self, len: usize) -> Result<Part> {
        if self.cap() < len {
            return Err(BufferTooShortError);
        }
        Ok(Part {
            from: self.len() - len,
            len,
        })
    }

    /// Writes `v` as one byte, moves the offset past it, and returns its range.
    #[inline(always)]
    pub(crate) fn part_of_u8(&mut self, v: u8) -> Result<Part> {
        let from = self.off;
        self.write_u8(v)?;
        Ok(Part { from, len: 1 })
    }

    /// Writes `v` as two bytes, moves the offset past them, and returns their range.
    #[inline(always)]
    pub(crate) fn part_of_u16(&mut self, v: u16) -> Result<Part> {
        let from = self.off;
        self.write_u16(v)?;
        Ok(Part { from, len: 2 })
    }

    /// Writes the lowest three bytes of `v`, moves the offset past them, and returns their range.
    #[inline(always)]
    pub(crate) fn part_of_u24(&mut self, v: u32) -> Result<Part> {
        let from = self.off;
        self.write_u24(v)?;
        Ok(Part { from, len: 3 })
    }

    /// Writes `v` as four bytes, moves the offset past them, and returns their range.
    #[inline(always)]
    pub(crate) fn part_of_u32(&mut self, v: u32) -> Result<Part> {
        let from = self.off;
        self.write_u32(v)?;
        Ok(Part { from, len: 4 })
    }

    /// Writes `v` as eight bytes, moves the offset past them, and returns their range.
    #[inline(always)]
    pub(crate) fn part_of_u64(&mut self, v: u64) -> Result<Part> {
        let from = self.off;
        self.write_u64(v)?;
        Ok(Part { from, len: 8 })
    }

    /// Writes the varint of `v` of least width, moves the offset past it, and returns its range.
    /// `v` must be below 2 to the power 62.
    ///
    /// # Requires
    ///
    /// - `v < 2 ^ 62`
    #[inline(always)]
    pub(crate) fn part_of_varint(&mut self, v: u64) -> Result<Part> {
        self.part_of_varint_with_len(v, varint_len(v))
    }

    /// Writes the varint of `v` in `len` bytes, moves the offset past it, and returns its range.
    /// `len` must be a width that holds `v`.
    ///
    /// # Requires
    ///
    /// - `IsWidth len`
    /// - `v < 2 ^ (8 * len - 2)`
    #[inline(always)]
    pub(crate) fn part_of_varint_with_len(&mut self, v: u64, len: usize) -> Result<Part> {
        let from = self.off;
        self.write_varint_with_len(v, len)?;
        Ok(Part { from, len })
    }

    /// Writes the lowest `len` bytes of `v` with the mark of the width, moves the offset past them,
    /// and returns their range. `len` must be a width.
    ///
    /// # Requires
    ///
    /// - `IsWidth len`
    #[inline(always)]
    pub(crate) fn part_of_marked(&mut self, v: u64, len: usize) -> Result<Part> {
        let from = self.off;
        self.write_marked(v, len)?;
        Ok(Part { from, len })
    }
}
