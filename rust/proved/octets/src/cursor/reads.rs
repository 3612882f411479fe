// Erased from crates/octets/src/cursor/reads.rt by tools/erase.
//! Reads of numbers and of varints.
use rattle_std::{self as std, prelude::*};

use crate::cursor::Cursor;
use crate::cursor::buffer::Bytes;
use crate::error::{Result, VarintError};
use crate::number::{read_u8, read_u16, read_u24, read_u32, read_u64};
use crate::varint::{read_varint, read_varint_shortest, varint_len};

/// Reads of numbers in network order. Each fails if and only if fewer bytes remain than its number
/// has.
impl<B: Bytes> Cursor<B> {
    /// Reads a number of one byte, and advances the offset past it.
    ///
    /// It fails if no byte remains. Then the offset is unchanged.
    ///
    /// ```
    /// # use octets_verified::*;
    /// let mut cursor = Octets::with_slice(&[7, 1]);
    /// assert_eq!(cursor.get_u8()?, 7);
    /// assert_eq!(cursor.off(), 1);
    /// # Ok::<(), Box<dyn core::error::Error>>(())
    /// ```
    #[inline(always)]
    pub fn get_u8(&mut self) -> Result<u8> {
        let value = read_u8(self.buf.as_slice(), self.off)?;
        self.advance(1);
        Ok(value)
    }

    /// Reads a number of two bytes, most significant byte first, and advances the offset past it.
    ///
    /// It fails if fewer than two bytes remain. Then the offset is unchanged.
    ///
    /// ```
    /// # use octets_verified::*;
    /// let mut cursor = Octets::with_slice(&[1, 2, 3]);
    /// assert_eq!(cursor.get_u16()?, 0x0102);
    /// assert_eq!(cursor.get_u16(), Err(BufferTooShortError));
    /// assert_eq!(cursor.off(), 2);
    /// # Ok::<(), Box<dyn core::error::Error>>(())
    /// ```
    #[inline(always)]
    pub fn get_u16(&mut self) -> Result<u16> {
        let value = read_u16(self.buf.as_slice(), self.off)?;
        self.advance(2);
        Ok(value)
    }

    /// Reads a number of three bytes, most significant byte first, and advances the offset past it.
    ///
    /// It fails if fewer than three bytes remain. Then the offset is unchanged.
    ///
    /// ```
    /// # use octets_verified::*;
    /// let mut cursor = Octets::with_slice(&[1, 2, 3]);
    /// assert_eq!(cursor.get_u24()?, 0x010203);
    /// # Ok::<(), Box<dyn core::error::Error>>(())
    /// ```
    #[inline(always)]
    pub fn get_u24(&mut self) -> Result<u32> {
        let value = read_u24(self.buf.as_slice(), self.off)?;
        self.advance(3);
        Ok(value)
    }

    /// Reads a number of four bytes, most significant byte first, and advances the offset past it.
    ///
    /// It fails if fewer than four bytes remain. Then the offset is unchanged.
    ///
    /// ```
    /// # use octets_verified::*;
    /// let mut cursor = Octets::with_slice(&[1, 2, 3, 4]);
    /// assert_eq!(cursor.get_u32()?, 0x01020304);
    /// # Ok::<(), Box<dyn core::error::Error>>(())
    /// ```
    #[inline(always)]
    pub fn get_u32(&mut self) -> Result<u32> {
        let value = read_u32(self.buf.as_slice(), self.off)?;
        self.advance(4);
        Ok(value)
    }

    /// Reads a number of eight bytes, most significant byte first, and advances the offset past it.
    ///
    /// It fails if fewer than eight bytes remain. Then the offset is unchanged.
    ///
    /// ```
    /// # use octets_verified::*;
    /// let mut cursor = Octets::with_slice(&[0, 0, 0, 0, 1, 2, 3, 4]);
    /// assert_eq!(cursor.get_u64()?, 0x01020304);
    /// # Ok::<(), Box<dyn core::error::Error>>(())
    /// ```
    #[inline(always)]
    pub fn get_u64(&mut self) -> Result<u64> {
        let value = read_u64(self.buf.as_slice(), self.off)?;
        self.advance(8);
        Ok(value)
    }

    /// Reads a number of one byte, and leaves the offset unchanged.
    ///
    /// It fails if no byte remains.
    ///
    /// ```
    /// # use octets_verified::*;
    /// let mut cursor = Octets::with_slice(&[7, 1]);
    /// assert_eq!(cursor.peek_u8()?, 7);
    /// assert_eq!(cursor.off(), 0);
    /// # Ok::<(), Box<dyn core::error::Error>>(())
    /// ```
    #[inline(always)]
    pub fn peek_u8(&mut self) -> Result<u8> {
        read_u8(self.buf.as_slice(), self.off)
    }

    /// Reads a varint (RFC 9000, section 16), of any width, and advances the offset past it.
    ///
    /// It also reads a varint that is wider than its value needs. It fails if no byte remains, or
    /// if fewer bytes remain than the first byte announces. Then the offset is unchanged.
    ///
    /// ```
    /// # use octets_verified::*;
    /// let mut cursor = Octets::with_slice(&[0x40, 0x25]);
    /// assert_eq!(cursor.get_varint()?, 37);
    /// assert_eq!(cursor.off(), 2);
    /// # Ok::<(), Box<dyn core::error::Error>>(())
    /// ```
    #[inline(always)]
    pub fn get_varint(&mut self) -> Result<u64> {
        let (width, value) = read_varint(self.buf.as_slice(), self.off)?;
        self.advance_by_width(width);
        Ok(value)
    }

    /// Reads a varint as [`get_varint`](Self::get_varint) does, and also fails if the varint is
    /// wider than its value needs.
    ///
    /// It fails with [`VarintError::Short`] if no complete varint remains, and with
    /// [`VarintError::Overlong`] if a shorter varint holds the same value. Then the offset is
    /// unchanged.
    ///
    /// ```
    /// # use octets_verified::*;
    /// let mut cursor = Octets::with_slice(&[0x25, 0x40, 0x25]);
    /// assert_eq!(cursor.get_varint_shortest(), Ok(37));
    /// assert_eq!(cursor.get_varint_shortest(), Err(VarintError::Overlong));
    /// assert_eq!(cursor.off(), 1);
    /// ```
    #[inline(always)]
    pub fn get_varint_shortest(&mut self) -> std::result::Result<u64, VarintError> {
        let value = read_varint_shortest(self.buf.as_slice(), self.off)?;
        self.advance(varint_len(value));
        Ok(value)
    }
}
