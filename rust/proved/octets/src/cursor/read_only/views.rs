// Erased from crates/octets/src/cursor/read_only/views.rt by tools/erase.
//! Calls that return a range of the bytes as a view or as a slice, and copy nothing.
use rattle_std::{self as std, prelude::*};

use crate::cursor::read_only::Octets;
use crate::error::{BufferTooShortError, Result};

impl<'a> Octets<'a> {
    /// Returns a cursor over the next `len` bytes, and advances the offset past them.
    ///
    /// It fails if fewer than `len` bytes remain. Then the offset is unchanged.
    ///
    /// ```
    /// # use octets_verified::*;
    /// let mut cursor = Octets::with_slice(&[1, 2, 3]);
    /// let mut view = cursor.get_bytes(2)?;
    /// assert_eq!(view.get_u16()?, 0x0102);
    /// assert_eq!(cursor.off(), 2);
    /// assert_eq!(cursor.get_bytes(2), Err(BufferTooShortError));
    /// # Ok::<(), Box<dyn core::error::Error>>(())
    /// ```
    #[inline(always)]
    pub fn get_bytes(&mut self, len: usize) -> Result<Octets<'a>> {
        let view = self.peek_bytes(len)?;
        self.advance(len);
        Ok(view)
    }

    /// Returns a cursor over the next `len` bytes, and leaves the offset unchanged.
    ///
    /// It fails if fewer than `len` bytes remain.
    ///
    /// ```
    /// # use octets_verified::*;
    /// let cursor = Octets::with_slice(&[1, 2, 3]);
    /// let mut view = cursor.peek_bytes(2)?;
    /// assert_eq!(view.get_u16()?, 0x0102);
    /// assert_eq!(cursor.off(), 0);
    /// # Ok::<(), Box<dyn core::error::Error>>(())
    /// ```
    #[inline(always)]
    pub fn peek_bytes(&self, len: usize) -> Result<Octets<'a>> {
        Ok(Octets::with_slice(self.slice(len)?))
    }

    /// Returns the next `len` bytes, and leaves the offset unchanged.
    ///
    /// It fails if fewer than `len` bytes remain.
    ///
    /// ```
    /// # use octets_verified::*;
    /// let cursor = Octets::with_slice(&[1, 2, 3]);
    /// assert_eq!(cursor.slice(2)?, [1, 2]);
    /// assert_eq!(cursor.off(), 0);
    /// # Ok::<(), Box<dyn core::error::Error>>(())
    /// ```
    #[inline(always)]
    pub fn slice(&self, len: usize) -> Result<&'a [u8]> {
        if len > self.cap() {
            return Err(BufferTooShortError);
        }
        let all = self.buf;
        Ok(&all[self.off..self.off + len])
    }

    /// Returns the last `len` bytes of the buffer, and leaves the offset unchanged.
    ///
    /// It fails if fewer than `len` bytes remain from the offset on.
    ///
    /// ```
    /// # use octets_verified::*;
    /// let cursor = Octets::with_slice(&[1, 2, 3]);
    /// assert_eq!(cursor.slice_last(2)?, [2, 3]);
    /// # Ok::<(), Box<dyn core::error::Error>>(())
    /// ```
    #[inline(always)]
    pub fn slice_last(&self, len: usize) -> Result<&'a [u8]> {
        if self.cap() < len {
            return Err(BufferTooShortError);
        }
        let all = self.buf;
        Ok(&all[all.len() - len..])
    }

    /// Reads a length of one byte, and returns a cursor over that many bytes after it. It advances
    /// the offset past both.
    ///
    /// It fails if no byte remains; then the offset is unchanged. It also fails if fewer bytes
    /// follow the length than the length says; then the offset is after the length.
    ///
    /// ```
    /// # use octets_verified::*;
    /// let mut cursor = Octets::with_slice(&[2, 97, 98, 0]);
    /// let run = cursor.get_bytes_with_u8_length()?;
    /// assert_eq!(run.buf(), b"ab");
    /// assert_eq!(cursor.off(), 3);
    /// # Ok::<(), Box<dyn core::error::Error>>(())
    /// ```
    #[inline(always)]
    pub fn get_bytes_with_u8_length(&mut self) -> Result<Octets<'a>> {
        let len = self.get_u8()?;
        self.get_bytes(usize::from(len))
    }

    /// Reads a length of two bytes, and returns a cursor over that many bytes after it. It advances
    /// the offset past both.
    ///
    /// It fails if fewer than two bytes remain; then the offset is unchanged. It also fails if
    /// fewer bytes follow the length than the length says; then the offset is after the length.
    ///
    /// ```
    /// # use octets_verified::*;
    /// let mut cursor = Octets::with_slice(&[0, 2, 97, 98, 0]);
    /// let run = cursor.get_bytes_with_u16_length()?;
    /// assert_eq!(run.buf(), b"ab");
    /// assert_eq!(cursor.off(), 4);
    /// # Ok::<(), Box<dyn core::error::Error>>(())
    /// ```
    #[inline(always)]
    pub fn get_bytes_with_u16_length(&mut self) -> Result<Octets<'a>> {
        let len = self.get_u16()?;
        self.get_bytes(usize::from(len))
    }

    /// Reads a length that is a varint, and returns a cursor over that many bytes after it. It
    /// advances the offset past both.
    ///
    /// It fails if no complete varint remains; then the offset is unchanged. It also fails if fewer
    /// bytes follow the length than the length says; then the offset is after the length.
    ///
    /// ```
    /// # use octets_verified::*;
    /// let mut cursor = Octets::with_slice(&[0x40, 2, 97, 98, 0]);
    /// let run = cursor.get_bytes_with_varint_length()?;
    /// assert_eq!(run.buf(), b"ab");
    /// assert_eq!(cursor.off(), 4);
    /// # Ok::<(), Box<dyn core::error::Error>>(())
    /// ```
    #[inline(always)]
    pub fn get_bytes_with_varint_length(&mut self) -> Result<Octets<'a>> {
        let len = self.get_varint()?;
        if len > self.cap() as u64 {
            return Err(BufferTooShortError);
        }
        self.get_bytes(len as usize)
    }
}
