//! The methods that only call the verified method of their name. Written by tools/erase: not to be edited.
use crate::{Octets, OctetsMut};
use octets_verified::{self as proved, *};

impl<'a> Octets<'a> {
    /// Makes a cursor over `buf`, with the offset 0.
    ///
    /// ```
    /// # use octets::*;
    /// let cursor = Octets::with_slice(&[1, 2, 3]);
    /// assert_eq!(cursor.off(), 0);
    /// assert_eq!(cursor.cap(), 3);
    /// ```
    #[inline]
    pub fn with_slice(buf: &'a [u8]) -> Self {
        Self(proved::Octets::with_slice(buf))
    }

    /// Reads a number of one byte, and advances the offset past it.
    ///
    /// It fails if no byte remains. Then the offset is unchanged.
    ///
    /// ```
    /// # use octets::*;
    /// let mut cursor = Octets::with_slice(&[7, 1]);
    /// assert_eq!(cursor.get_u8()?, 7);
    /// assert_eq!(cursor.off(), 1);
    /// # Ok::<(), Box<dyn core::error::Error>>(())
    /// ```
    #[inline]
    pub fn get_u8(&mut self) -> Result<u8> {
        self.0.get_u8()
    }

    /// Reads a number of two bytes, most significant byte first, and advances the offset past it.
    ///
    /// It fails if fewer than two bytes remain. Then the offset is unchanged.
    ///
    /// ```
    /// # use octets::*;
    /// let mut cursor = Octets::with_slice(&[1, 2, 3]);
    /// assert_eq!(cursor.get_u16()?, 0x0102);
    /// assert_eq!(cursor.get_u16(), Err(BufferTooShortError));
    /// assert_eq!(cursor.off(), 2);
    /// # Ok::<(), Box<dyn core::error::Error>>(())
    /// ```
    #[inline]
    pub fn get_u16(&mut self) -> Result<u16> {
        self.0.get_u16()
    }

    /// Reads a number of three bytes, most significant byte first, and advances the offset past it.
    ///
    /// It fails if fewer than three bytes remain. Then the offset is unchanged.
    ///
    /// ```
    /// # use octets::*;
    /// let mut cursor = Octets::with_slice(&[1, 2, 3]);
    /// assert_eq!(cursor.get_u24()?, 0x010203);
    /// # Ok::<(), Box<dyn core::error::Error>>(())
    /// ```
    #[inline]
    pub fn get_u24(&mut self) -> Result<u32> {
        self.0.get_u24()
    }

    /// Reads a number of four bytes, most significant byte first, and advances the offset past it.
    ///
    /// It fails if fewer than four bytes remain. Then the offset is unchanged.
    ///
    /// ```
    /// # use octets::*;
    /// let mut cursor = Octets::with_slice(&[1, 2, 3, 4]);
    /// assert_eq!(cursor.get_u32()?, 0x01020304);
    /// # Ok::<(), Box<dyn core::error::Error>>(())
    /// ```
    #[inline]
    pub fn get_u32(&mut self) -> Result<u32> {
        self.0.get_u32()
    }

    /// Reads a number of eight bytes, most significant byte first, and advances the offset past it.
    ///
    /// It fails if fewer than eight bytes remain. Then the offset is unchanged.
    ///
    /// ```
    /// # use octets::*;
    /// let mut cursor = Octets::with_slice(&[0, 0, 0, 0, 1, 2, 3, 4]);
    /// assert_eq!(cursor.get_u64()?, 0x01020304);
    /// # Ok::<(), Box<dyn core::error::Error>>(())
    /// ```
    #[inline]
    pub fn get_u64(&mut self) -> Result<u64> {
        self.0.get_u64()
    }

    /// Reads a varint (RFC 9000, section 16), of any width, and advances the offset past it.
    ///
    /// It also reads a varint that is wider than its value needs. It fails if no byte remains, or
    /// if fewer bytes remain than the first byte announces. Then the offset is unchanged.
    ///
    /// ```
    /// # use octets::*;
    /// let mut cursor = Octets::with_slice(&[0x40, 0x25]);
    /// assert_eq!(cursor.get_varint()?, 37);
    /// assert_eq!(cursor.off(), 2);
    /// # Ok::<(), Box<dyn core::error::Error>>(())
    /// ```
    #[inline]
    pub fn get_varint(&mut self) -> Result<u64> {
        self.0.get_varint()
    }

    /// Returns a cursor over the next `len` bytes, and advances the offset past them.
    ///
    /// It fails if fewer than `len` bytes remain. Then the offset is unchanged.
    ///
    /// ```
    /// # use octets::*;
    /// let mut cursor = Octets::with_slice(&[1, 2, 3]);
    /// let mut view = cursor.get_bytes(2)?;
    /// assert_eq!(view.get_u16()?, 0x0102);
    /// assert_eq!(cursor.off(), 2);
    /// assert_eq!(cursor.get_bytes(2), Err(BufferTooShortError));
    /// # Ok::<(), Box<dyn core::error::Error>>(())
    /// ```
    #[inline]
    pub fn get_bytes(&mut self, len: usize) -> Result<Octets<'a>> {
        self.0.get_bytes(len).map(Octets)
    }

    /// Reads a length of one byte, and returns a cursor over that many bytes after it. It advances
    /// the offset past both.
    ///
    /// It fails if no byte remains; then the offset is unchanged. It also fails if fewer bytes
    /// follow the length than the length says; then the offset is after the length.
    ///
    /// ```
    /// # use octets::*;
    /// let mut cursor = Octets::with_slice(&[2, 97, 98, 0]);
    /// let run = cursor.get_bytes_with_u8_length()?;
    /// assert_eq!(run.buf(), b"ab");
    /// assert_eq!(cursor.off(), 3);
    /// # Ok::<(), Box<dyn core::error::Error>>(())
    /// ```
    #[inline]
    pub fn get_bytes_with_u8_length(&mut self) -> Result<Octets<'a>> {
        self.0.get_bytes_with_u8_length().map(Octets)
    }

    /// Reads a length of two bytes, and returns a cursor over that many bytes after it. It advances
    /// the offset past both.
    ///
    /// It fails if fewer than two bytes remain; then the offset is unchanged. It also fails if
    /// fewer bytes follow the length than the length says; then the offset is after the length.
    ///
    /// ```
    /// # use octets::*;
    /// let mut cursor = Octets::with_slice(&[0, 2, 97, 98, 0]);
    /// let run = cursor.get_bytes_with_u16_length()?;
    /// assert_eq!(run.buf(), b"ab");
    /// assert_eq!(cursor.off(), 4);
    /// # Ok::<(), Box<dyn core::error::Error>>(())
    /// ```
    #[inline]
    pub fn get_bytes_with_u16_length(&mut self) -> Result<Octets<'a>> {
        self.0.get_bytes_with_u16_length().map(Octets)
    }

    /// Reads a length that is a varint, and returns a cursor over that many bytes after it. It
    /// advances the offset past both.
    ///
    /// It fails if no complete varint remains; then the offset is unchanged. It also fails if fewer
    /// bytes follow the length than the length says; then the offset is after the length.
    ///
    /// ```
    /// # use octets::*;
    /// let mut cursor = Octets::with_slice(&[0x40, 2, 97, 98, 0]);
    /// let run = cursor.get_bytes_with_varint_length()?;
    /// assert_eq!(run.buf(), b"ab");
    /// assert_eq!(cursor.off(), 4);
    /// # Ok::<(), Box<dyn core::error::Error>>(())
    /// ```
    #[inline]
    pub fn get_bytes_with_varint_length(&mut self) -> Result<Octets<'a>> {
        self.0.get_bytes_with_varint_length().map(Octets)
    }

    /// Reads a number of one byte, and leaves the offset unchanged.
    ///
    /// It fails if no byte remains.
    ///
    /// ```
    /// # use octets::*;
    /// let mut cursor = Octets::with_slice(&[7, 1]);
    /// assert_eq!(cursor.peek_u8()?, 7);
    /// assert_eq!(cursor.off(), 0);
    /// # Ok::<(), Box<dyn core::error::Error>>(())
    /// ```
    #[inline]
    pub fn peek_u8(&mut self) -> Result<u8> {
        self.0.peek_u8()
    }

    /// Returns a cursor over the next `len` bytes, and leaves the offset unchanged.
    ///
    /// It fails if fewer than `len` bytes remain.
    ///
    /// ```
    /// # use octets::*;
    /// let cursor = Octets::with_slice(&[1, 2, 3]);
    /// let mut view = cursor.peek_bytes(2)?;
    /// assert_eq!(view.get_u16()?, 0x0102);
    /// assert_eq!(cursor.off(), 0);
    /// # Ok::<(), Box<dyn core::error::Error>>(())
    /// ```
    #[inline]
    pub fn peek_bytes(&self, len: usize) -> Result<Octets<'a>> {
        self.0.peek_bytes(len).map(Octets)
    }

    /// Returns the next `len` bytes, and leaves the offset unchanged.
    ///
    /// It fails if fewer than `len` bytes remain.
    ///
    /// ```
    /// # use octets::*;
    /// let cursor = Octets::with_slice(&[1, 2, 3]);
    /// assert_eq!(cursor.slice(2)?, [1, 2]);
    /// assert_eq!(cursor.off(), 0);
    /// # Ok::<(), Box<dyn core::error::Error>>(())
    /// ```
    #[inline]
    pub fn slice(&self, len: usize) -> Result<&'a [u8]> {
        self.0.slice(len)
    }

    /// Returns the last `len` bytes of the buffer, and leaves the offset unchanged.
    ///
    /// It fails if fewer than `len` bytes remain from the offset on.
    ///
    /// ```
    /// # use octets::*;
    /// let cursor = Octets::with_slice(&[1, 2, 3]);
    /// assert_eq!(cursor.slice_last(2)?, [2, 3]);
    /// # Ok::<(), Box<dyn core::error::Error>>(())
    /// ```
    #[inline]
    pub fn slice_last(&self, len: usize) -> Result<&'a [u8]> {
        self.0.slice_last(len)
    }

    /// Advances the offset by `skip` bytes.
    ///
    /// It fails if fewer than `skip` bytes remain. Then the offset is unchanged.
    ///
    /// ```
    /// # use octets::*;
    /// let mut cursor = Octets::with_slice(&[1, 2, 3]);
    /// cursor.skip(2)?;
    /// assert_eq!(cursor.off(), 2);
    /// assert_eq!(cursor.skip(2), Err(BufferTooShortError));
    /// # Ok::<(), Box<dyn core::error::Error>>(())
    /// ```
    #[inline]
    pub fn skip(&mut self, skip: usize) -> Result<()> {
        self.0.skip(skip)
    }

    /// Moves the offset back by `len` bytes.
    ///
    /// It fails if the offset is less than `len`. Then the offset is unchanged.
    ///
    /// ```
    /// # use octets::*;
    /// let mut cursor = Octets::with_slice(&[1, 2, 3]);
    /// cursor.skip(2)?;
    /// cursor.rewind(1)?;
    /// assert_eq!(cursor.off(), 1);
    /// assert_eq!(cursor.rewind(2), Err(BufferTooShortError));
    /// # Ok::<(), Box<dyn core::error::Error>>(())
    /// ```
    #[inline]
    pub fn rewind(&mut self, len: usize) -> Result<()> {
        self.0.rewind(len)
    }

    /// Returns the number of bytes that remain, from the offset to the end of the buffer.
    ///
    /// ```
    /// # use octets::*;
    /// let mut cursor = Octets::with_slice(&[1, 2, 3]);
    /// cursor.skip(2)?;
    /// assert_eq!(cursor.cap(), 1);
    /// # Ok::<(), Box<dyn core::error::Error>>(())
    /// ```
    #[inline]
    pub fn cap(&self) -> usize {
        self.0.cap()
    }

    /// Returns the number of bytes of the whole buffer, including those before the offset.
    ///
    /// ```
    /// # use octets::*;
    /// let mut cursor = Octets::with_slice(&[1, 2, 3]);
    /// cursor.skip(2)?;
    /// assert_eq!(cursor.len(), 3);
    /// # Ok::<(), Box<dyn core::error::Error>>(())
    /// ```
    #[inline]
    pub fn len(&self) -> usize {
        self.0.len()
    }

    /// Returns whether the whole buffer has no bytes. A cursor at the end of a buffer with bytes
    /// isn't empty: test whether [`cap`](Self::cap) is 0 to find the end.
    ///
    /// ```
    /// # use octets::*;
    /// let mut cursor = Octets::with_slice(&[1]);
    /// cursor.skip(1)?;
    /// assert!(!cursor.is_empty());
    /// # Ok::<(), Box<dyn core::error::Error>>(())
    /// ```
    #[inline]
    pub fn is_empty(&self) -> bool {
        self.0.is_empty()
    }

    /// Returns the offset, which is the number of bytes of the buffer before the next byte that is
    /// read or written.
    ///
    /// ```
    /// # use octets::*;
    /// let mut cursor = Octets::with_slice(&[1, 2, 3]);
    /// cursor.skip(2)?;
    /// assert_eq!(cursor.off(), 2);
    /// # Ok::<(), Box<dyn core::error::Error>>(())
    /// ```
    #[inline]
    pub fn off(&self) -> usize {
        self.0.off()
    }

    /// Returns the whole buffer, including the bytes before the offset.
    ///
    /// ```
    /// # use octets::*;
    /// let mut cursor = Octets::with_slice(&[1, 2, 3]);
    /// cursor.skip(2)?;
    /// assert_eq!(cursor.buf(), [1, 2, 3]);
    /// # Ok::<(), Box<dyn core::error::Error>>(())
    /// ```
    #[inline]
    pub fn buf(&self) -> &'a [u8] {
        self.0.buf()
    }

    /// Decodes the bytes that remain as one Huffman-encoded string into the first bytes of `out`,
    /// advances the offset to the end, and returns how many bytes of `out` it wrote. It allocates
    /// nothing.
    ///
    /// It fails with [`IntoError::NoRoom`] if the value is longer than `out`, and with
    /// [`IntoError::NotText`] if the bytes aren't a Huffman-encoded string. Then `out` begins with
    /// the bytes that were decoded before the error, and the offset is after the byte at which the
    /// decoder found the error.
    ///
    /// ```
    /// # use octets::*;
    /// # use octets::more::*;
    /// let mut cursor = Octets::with_slice(&[0x18, 0xff]);
    /// let mut out = [0; 4];
    /// assert_eq!(cursor.get_huffman_decoded_into(&mut out), Ok(2));
    /// assert_eq!(out, [97, 97, 0, 0]);
    /// ```
    #[cfg(feature = "more")]
    #[inline]
    pub fn get_huffman_decoded_into(&mut self, out: &mut [u8]) -> core::result::Result<usize, IntoError> {
        self.0.get_huffman_decoded_into(out)
    }

    /// Reads a varint as [`get_varint`](Self::get_varint) does, and also fails if the varint is
    /// wider than its value needs.
    ///
    /// It fails with [`VarintError::Short`] if no complete varint remains, and with
    /// [`VarintError::Overlong`] if a shorter varint holds the same value. Then the offset is
    /// unchanged.
    ///
    /// ```
    /// # use octets::*;
    /// # use octets::more::*;
    /// let mut cursor = Octets::with_slice(&[0x25, 0x40, 0x25]);
    /// assert_eq!(cursor.get_varint_shortest(), Ok(37));
    /// assert_eq!(cursor.get_varint_shortest(), Err(VarintError::Overlong));
    /// assert_eq!(cursor.off(), 1);
    /// ```
    #[cfg(feature = "more")]
    #[inline]
    pub fn get_varint_shortest(&mut self) -> core::result::Result<u64, VarintError> {
        self.0.get_varint_shortest()
    }
}

impl<'a> OctetsMut<'a> {
    /// Makes a cursor over `buf`, with the offset 0.
    ///
    /// ```
    /// # use octets::*;
    /// let mut bytes = [1, 2, 3];
    /// let cursor = OctetsMut::with_slice(&mut bytes);
    /// assert_eq!(cursor.off(), 0);
    /// assert_eq!(cursor.cap(), 3);
    /// ```
    #[inline]
    pub fn with_slice(buf: &'a mut [u8]) -> Self {
        Self(proved::OctetsMut::with_slice(buf))
    }

    /// Reads a number of one byte, and advances the offset past it.
    ///
    /// It fails if no byte remains. Then the offset is unchanged.
    ///
    /// ```
    /// # use octets::*;
    /// let mut bytes = [7, 1];
    /// let mut cursor = OctetsMut::with_slice(&mut bytes);
    /// assert_eq!(cursor.get_u8()?, 7);
    /// assert_eq!(cursor.off(), 1);
    /// # Ok::<(), Box<dyn core::error::Error>>(())
    /// ```
    #[inline]
    pub fn get_u8(&mut self) -> Result<u8> {
        self.0.get_u8()
    }

    /// Reads a number of two bytes, most significant byte first, and advances the offset past it.
    ///
    /// It fails if fewer than two bytes remain. Then the offset is unchanged.
    ///
    /// ```
    /// # use octets::*;
    /// let mut bytes = [1, 2, 3];
    /// let mut cursor = OctetsMut::with_slice(&mut bytes);
    /// assert_eq!(cursor.get_u16()?, 0x0102);
    /// assert_eq!(cursor.get_u16(), Err(BufferTooShortError));
    /// assert_eq!(cursor.off(), 2);
    /// # Ok::<(), Box<dyn core::error::Error>>(())
    /// ```
    #[inline]
    pub fn get_u16(&mut self) -> Result<u16> {
        self.0.get_u16()
    }

    /// Reads a number of three bytes, most significant byte first, and advances the offset past it.
    ///
    /// It fails if fewer than three bytes remain. Then the offset is unchanged.
    ///
    /// ```
    /// # use octets::*;
    /// let mut bytes = [1, 2, 3];
    /// let mut cursor = OctetsMut::with_slice(&mut bytes);
    /// assert_eq!(cursor.get_u24()?, 0x010203);
    /// # Ok::<(), Box<dyn core::error::Error>>(())
    /// ```
    #[inline]
    pub fn get_u24(&mut self) -> Result<u32> {
        self.0.get_u24()
    }

    /// Reads a number of four bytes, most significant byte first, and advances the offset past it.
    ///
    /// It fails if fewer than four bytes remain. Then the offset is unchanged.
    ///
    /// ```
    /// # use octets::*;
    /// let mut bytes = [1, 2, 3, 4];
    /// let mut cursor = OctetsMut::with_slice(&mut bytes);
    /// assert_eq!(cursor.get_u32()?, 0x01020304);
    /// # Ok::<(), Box<dyn core::error::Error>>(())
    /// ```
    #[inline]
    pub fn get_u32(&mut self) -> Result<u32> {
        self.0.get_u32()
    }

    /// Reads a number of eight bytes, most significant byte first, and advances the offset past it.
    ///
    /// It fails if fewer than eight bytes remain. Then the offset is unchanged.
    ///
    /// ```
    /// # use octets::*;
    /// let mut bytes = [0, 0, 0, 0, 1, 2, 3, 4];
    /// let mut cursor = OctetsMut::with_slice(&mut bytes);
    /// assert_eq!(cursor.get_u64()?, 0x01020304);
    /// # Ok::<(), Box<dyn core::error::Error>>(())
    /// ```
    #[inline]
    pub fn get_u64(&mut self) -> Result<u64> {
        self.0.get_u64()
    }

    /// Reads a varint (RFC 9000, section 16), of any width, and advances the offset past it.
    ///
    /// It also reads a varint that is wider than its value needs. It fails if no byte remains, or
    /// if fewer bytes remain than the first byte announces. Then the offset is unchanged.
    ///
    /// ```
    /// # use octets::*;
    /// let mut bytes = [0x40, 0x25];
    /// let mut cursor = OctetsMut::with_slice(&mut bytes);
    /// assert_eq!(cursor.get_varint()?, 37);
    /// assert_eq!(cursor.off(), 2);
    /// # Ok::<(), Box<dyn core::error::Error>>(())
    /// ```
    #[inline]
    pub fn get_varint(&mut self) -> Result<u64> {
        self.0.get_varint()
    }

    /// Returns a cursor over the next `len` bytes, and advances the offset past them.
    ///
    /// It fails if fewer than `len` bytes remain. Then the offset is unchanged.
    ///
    /// ```
    /// # use octets::*;
    /// let mut bytes = [1, 2, 3];
    /// let mut cursor = OctetsMut::with_slice(&mut bytes);
    /// let mut view = cursor.get_bytes(2)?;
    /// assert_eq!(view.get_u16()?, 0x0102);
    /// assert_eq!(cursor.off(), 2);
    /// assert_eq!(cursor.get_bytes(2), Err(BufferTooShortError));
    /// # Ok::<(), Box<dyn core::error::Error>>(())
    /// ```
    #[inline]
    pub fn get_bytes(&mut self, len: usize) -> Result<Octets<'_>> {
        self.0.get_bytes(len).map(Octets)
    }

    /// Reads a length of one byte, and returns a cursor over that many bytes after it. It advances
    /// the offset past both.
    ///
    /// It fails if no byte remains; then the offset is unchanged. It also fails if fewer bytes
    /// follow the length than the length says; then the offset is after the length.
    ///
    /// ```
    /// # use octets::*;
    /// let mut bytes = [2, 97, 98, 0];
    /// let mut cursor = OctetsMut::with_slice(&mut bytes);
    /// let run = cursor.get_bytes_with_u8_length()?;
    /// assert_eq!(run.buf(), b"ab");
    /// assert_eq!(cursor.off(), 3);
    /// # Ok::<(), Box<dyn core::error::Error>>(())
    /// ```
    #[inline]
    pub fn get_bytes_with_u8_length(&mut self) -> Result<Octets<'_>> {
        self.0.get_bytes_with_u8_length().map(Octets)
    }

    /// Reads a length of two bytes, and returns a cursor over that many bytes after it. It advances
    /// the offset past both.
    ///
    /// It fails if fewer than two bytes remain; then the offset is unchanged. It also fails if
    /// fewer bytes follow the length than the length says; then the offset is after the length.
    ///
    /// ```
    /// # use octets::*;
    /// let mut bytes = [0, 2, 97, 98, 0];
    /// let mut cursor = OctetsMut::with_slice(&mut bytes);
    /// let run = cursor.get_bytes_with_u16_length()?;
    /// assert_eq!(run.buf(), b"ab");
    /// assert_eq!(cursor.off(), 4);
    /// # Ok::<(), Box<dyn core::error::Error>>(())
    /// ```
    #[inline]
    pub fn get_bytes_with_u16_length(&mut self) -> Result<Octets<'_>> {
        self.0.get_bytes_with_u16_length().map(Octets)
    }

    /// Reads a length that is a varint, and returns a cursor over that many bytes after it. It
    /// advances the offset past both.
    ///
    /// It fails if no complete varint remains; then the offset is unchanged. It also fails if fewer
    /// bytes follow the length than the length says; then the offset is after the length.
    ///
    /// ```
    /// # use octets::*;
    /// let mut bytes = [0x40, 2, 97, 98, 0];
    /// let mut cursor = OctetsMut::with_slice(&mut bytes);
    /// let run = cursor.get_bytes_with_varint_length()?;
    /// assert_eq!(run.buf(), b"ab");
    /// assert_eq!(cursor.off(), 4);
    /// # Ok::<(), Box<dyn core::error::Error>>(())
    /// ```
    #[inline]
    pub fn get_bytes_with_varint_length(&mut self) -> Result<Octets<'_>> {
        self.0.get_bytes_with_varint_length().map(Octets)
    }

    /// Reads a number of one byte, and leaves the offset unchanged.
    ///
    /// It fails if no byte remains.
    ///
    /// ```
    /// # use octets::*;
    /// let mut bytes = [7, 1];
    /// let mut cursor = OctetsMut::with_slice(&mut bytes);
    /// assert_eq!(cursor.peek_u8()?, 7);
    /// assert_eq!(cursor.off(), 0);
    /// # Ok::<(), Box<dyn core::error::Error>>(())
    /// ```
    #[inline]
    pub fn peek_u8(&mut self) -> Result<u8> {
        self.0.peek_u8()
    }

    /// Returns a cursor over the next `len` bytes, and leaves the offset unchanged.
    ///
    /// It fails if fewer than `len` bytes remain.
    ///
    /// ```
    /// # use octets::*;
    /// let mut bytes = [1, 2, 3];
    /// let mut cursor = OctetsMut::with_slice(&mut bytes);
    /// let mut view = cursor.peek_bytes(2)?;
    /// assert_eq!(view.get_u16()?, 0x0102);
    /// assert_eq!(cursor.off(), 0);
    /// # Ok::<(), Box<dyn core::error::Error>>(())
    /// ```
    #[inline]
    pub fn peek_bytes(&mut self, len: usize) -> Result<Octets<'_>> {
        self.0.peek_bytes(len).map(Octets)
    }

    /// Writes a number of one byte, advances the offset past it, and returns a mutable slice of the
    /// written byte.
    ///
    /// It fails if no byte remains. Then nothing is written, and the offset is unchanged.
    ///
    /// ```
    /// # use octets::*;
    /// let mut bytes = [0, 0];
    /// let mut cursor = OctetsMut::with_slice(&mut bytes);
    /// cursor.put_u8(7)?;
    /// assert_eq!(cursor.buf(), [7, 0]);
    /// # Ok::<(), Box<dyn core::error::Error>>(())
    /// ```
    #[inline]
    pub fn put_u8(&mut self, v: u8) -> Result<&mut [u8]> {
        self.0.put_u8(v)
    }

    /// Writes a number of two bytes, most significant byte first, advances the offset past it, and
    /// returns a mutable slice of the written bytes.
    ///
    /// It fails if fewer than two bytes remain. Then nothing is written, and the offset is
    /// unchanged.
    ///
    /// ```
    /// # use octets::*;
    /// let mut bytes = [0, 0, 0];
    /// let mut cursor = OctetsMut::with_slice(&mut bytes);
    /// cursor.put_u16(0x0102)?[1] = 9;
    /// assert_eq!(cursor.buf(), [1, 9, 0]);
    /// # Ok::<(), Box<dyn core::error::Error>>(())
    /// ```
    #[inline]
    pub fn put_u16(&mut self, v: u16) -> Result<&mut [u8]> {
        self.0.put_u16(v)
    }

    /// Writes the least significant three bytes of a number, most significant byte first, advances
    /// the offset past them, and returns a mutable slice of the written bytes.
    ///
    /// It fails if fewer than three bytes remain. Then nothing is written, and the offset is
    /// unchanged.
    ///
    /// ```
    /// # use octets::*;
    /// let mut bytes = [0, 0, 0];
    /// let mut cursor = OctetsMut::with_slice(&mut bytes);
    /// cursor.put_u24(0x09010203)?;
    /// assert_eq!(cursor.buf(), [1, 2, 3]);
    /// # Ok::<(), Box<dyn core::error::Error>>(())
    /// ```
    #[inline]
    pub fn put_u24(&mut self, v: u32) -> Result<&mut [u8]> {
        self.0.put_u24(v)
    }

    /// Writes a number of four bytes, most significant byte first, advances the offset past it, and
    /// returns a mutable slice of the written bytes.
    ///
    /// It fails if fewer than four bytes remain. Then nothing is written, and the offset is
    /// unchanged.
    ///
    /// ```
    /// # use octets::*;
    /// let mut bytes = [0, 0, 0, 0];
    /// let mut cursor = OctetsMut::with_slice(&mut bytes);
    /// cursor.put_u32(0x01020304)?;
    /// assert_eq!(cursor.buf(), [1, 2, 3, 4]);
    /// # Ok::<(), Box<dyn core::error::Error>>(())
    /// ```
    #[inline]
    pub fn put_u32(&mut self, v: u32) -> Result<&mut [u8]> {
        self.0.put_u32(v)
    }

    /// Writes a number of eight bytes, most significant byte first, advances the offset past it,
    /// and returns a mutable slice of the written bytes.
    ///
    /// It fails if fewer than eight bytes remain. Then nothing is written, and the offset is
    /// unchanged.
    ///
    /// ```
    /// # use octets::*;
    /// let mut bytes = [9, 9, 9, 9, 9, 9, 9, 9];
    /// let mut cursor = OctetsMut::with_slice(&mut bytes);
    /// cursor.put_u64(0x0102)?;
    /// assert_eq!(cursor.buf(), [0, 0, 0, 0, 0, 0, 1, 2]);
    /// # Ok::<(), Box<dyn core::error::Error>>(())
    /// ```
    #[inline]
    pub fn put_u64(&mut self, v: u64) -> Result<&mut [u8]> {
        self.0.put_u64(v)
    }

    /// Writes all of `v`, and advances the offset past it.
    ///
    /// It fails if fewer bytes remain than `v` has. Then nothing is written, and the offset is
    /// unchanged.
    ///
    /// ```
    /// # use octets::*;
    /// let mut bytes = [0, 0, 0];
    /// let mut cursor = OctetsMut::with_slice(&mut bytes);
    /// cursor.put_bytes(b"ab")?;
    /// assert_eq!(cursor.put_bytes(b"cd"), Err(BufferTooShortError));
    /// assert_eq!(cursor.buf(), [97, 98, 0]);
    /// # Ok::<(), Box<dyn core::error::Error>>(())
    /// ```
    #[inline]
    pub fn put_bytes(&mut self, v: &[u8]) -> Result<()> {
        self.0.put_bytes(v)
    }

    /// Returns a cursor for writing over the next `len` bytes, and advances the offset past them.
    ///
    /// It fails if fewer than `len` bytes remain. Then the offset is unchanged.
    ///
    /// ```
    /// # use octets::*;
    /// let mut bytes = [0, 0, 0];
    /// let mut cursor = OctetsMut::with_slice(&mut bytes);
    /// cursor.get_bytes_mut(2)?.put_u16(0x0102)?;
    /// assert_eq!(cursor.buf(), [1, 2, 0]);
    /// assert_eq!(cursor.off(), 2);
    /// # Ok::<(), Box<dyn core::error::Error>>(())
    /// ```
    #[inline]
    pub fn get_bytes_mut(&mut self, len: usize) -> Result<OctetsMut<'_>> {
        self.0.get_bytes_mut(len).map(OctetsMut)
    }

    /// Returns a cursor for writing over the next `len` bytes, and leaves the offset unchanged.
    ///
    /// It fails if fewer than `len` bytes remain.
    ///
    /// ```
    /// # use octets::*;
    /// let mut bytes = [0, 0, 0];
    /// let mut cursor = OctetsMut::with_slice(&mut bytes);
    /// cursor.peek_bytes_mut(2)?.put_u16(0x0102)?;
    /// assert_eq!(cursor.get_u16()?, 0x0102);
    /// # Ok::<(), Box<dyn core::error::Error>>(())
    /// ```
    #[inline]
    pub fn peek_bytes_mut(&mut self, len: usize) -> Result<OctetsMut<'_>> {
        self.0.peek_bytes_mut(len).map(OctetsMut)
    }

    /// Returns two cursors for writing: one over the first `off` bytes of the whole buffer, and one
    /// over the bytes after them. The offset is ignored and unchanged.
    ///
    /// It fails if the buffer has fewer than `off` bytes.
    ///
    /// ```
    /// # use octets::*;
    /// let mut bytes = [1, 2, 3];
    /// let mut cursor = OctetsMut::with_slice(&mut bytes);
    /// let (left, right) = cursor.split_at(1)?;
    /// assert_eq!(left.buf(), [1]);
    /// assert_eq!(right.buf(), [2, 3]);
    /// # Ok::<(), Box<dyn core::error::Error>>(())
    /// ```
    #[inline]
    pub fn split_at(&mut self, off: usize) -> Result<(OctetsMut<'_>, OctetsMut<'_>)> {
        self.0.split_at(off).map(|(first, second)| (OctetsMut(first), OctetsMut(second)))
    }

    /// Advances the offset by `skip` bytes.
    ///
    /// It fails if fewer than `skip` bytes remain. Then the offset is unchanged.
    ///
    /// ```
    /// # use octets::*;
    /// let mut bytes = [1, 2, 3];
    /// let mut cursor = OctetsMut::with_slice(&mut bytes);
    /// cursor.skip(2)?;
    /// assert_eq!(cursor.off(), 2);
    /// assert_eq!(cursor.skip(2), Err(BufferTooShortError));
    /// # Ok::<(), Box<dyn core::error::Error>>(())
    /// ```
    #[inline]
    pub fn skip(&mut self, skip: usize) -> Result<()> {
        self.0.skip(skip)
    }

    /// Moves the offset back by `len` bytes.
    ///
    /// It fails if the offset is less than `len`. Then the offset is unchanged.
    ///
    /// ```
    /// # use octets::*;
    /// let mut bytes = [1, 2, 3];
    /// let mut cursor = OctetsMut::with_slice(&mut bytes);
    /// cursor.skip(2)?;
    /// cursor.rewind(1)?;
    /// assert_eq!(cursor.off(), 1);
    /// assert_eq!(cursor.rewind(2), Err(BufferTooShortError));
    /// # Ok::<(), Box<dyn core::error::Error>>(())
    /// ```
    #[inline]
    pub fn rewind(&mut self, len: usize) -> Result<()> {
        self.0.rewind(len)
    }

    /// Returns the number of bytes that remain, from the offset to the end of the buffer.
    ///
    /// ```
    /// # use octets::*;
    /// let mut bytes = [1, 2, 3];
    /// let mut cursor = OctetsMut::with_slice(&mut bytes);
    /// cursor.skip(2)?;
    /// assert_eq!(cursor.cap(), 1);
    /// # Ok::<(), Box<dyn core::error::Error>>(())
    /// ```
    #[inline]
    pub fn cap(&self) -> usize {
        self.0.cap()
    }

    /// Returns the number of bytes of the whole buffer, including those before the offset.
    ///
    /// ```
    /// # use octets::*;
    /// let mut bytes = [1, 2, 3];
    /// let mut cursor = OctetsMut::with_slice(&mut bytes);
    /// cursor.skip(2)?;
    /// assert_eq!(cursor.len(), 3);
    /// # Ok::<(), Box<dyn core::error::Error>>(())
    /// ```
    #[inline]
    pub fn len(&self) -> usize {
        self.0.len()
    }

    /// Returns whether the whole buffer has no bytes. A cursor at the end of a buffer with bytes
    /// isn't empty: test whether [`cap`](Self::cap) is 0 to find the end.
    ///
    /// ```
    /// # use octets::*;
    /// let mut bytes = [1];
    /// let mut cursor = OctetsMut::with_slice(&mut bytes);
    /// cursor.skip(1)?;
    /// assert!(!cursor.is_empty());
    /// # Ok::<(), Box<dyn core::error::Error>>(())
    /// ```
    #[inline]
    pub fn is_empty(&self) -> bool {
        self.0.is_empty()
    }

    /// Returns the offset, which is the number of bytes of the buffer before the next byte that is
    /// read or written.
    ///
    /// ```
    /// # use octets::*;
    /// let mut bytes = [1, 2, 3];
    /// let mut cursor = OctetsMut::with_slice(&mut bytes);
    /// cursor.skip(2)?;
    /// assert_eq!(cursor.off(), 2);
    /// # Ok::<(), Box<dyn core::error::Error>>(())
    /// ```
    #[inline]
    pub fn off(&self) -> usize {
        self.0.off()
    }

    /// Returns the whole buffer, including the bytes before the offset.
    ///
    /// ```
    /// # use octets::*;
    /// let mut bytes = [1, 2, 3];
    /// let mut cursor = OctetsMut::with_slice(&mut bytes);
    /// cursor.skip(2)?;
    /// assert_eq!(cursor.buf(), [1, 2, 3]);
    /// # Ok::<(), Box<dyn core::error::Error>>(())
    /// ```
    #[inline]
    pub fn buf(&self) -> &[u8] {
        self.0.buf()
    }

    /// Writes the Huffman encoding of `v` (RFC 7541, section 5.2), or of `v` in lower case if
    /// `LOWER_CASE` is true, and advances the offset past it.
    ///
    /// It writes the encoding in pieces of eight bytes, then one piece of four bytes if at least
    /// four are left, then single bytes. It fails if fewer bytes remain than the encoding has. Then
    /// the pieces that fit before the first one that doesn't are written, and the offset is after
    /// them. To avoid that, call [`huffman_encoding_len`](crate::huffman_encoding_len) first, or
    /// write to a buffer that you can discard.
    ///
    /// ```
    /// # use octets::*;
    /// let mut bytes = [0, 0, 0];
    /// let mut cursor = OctetsMut::with_slice(&mut bytes);
    /// cursor.put_huffman_encoded::<true>(b"AA")?;
    /// assert_eq!(cursor.buf(), [0x18, 0xff, 0]);
    /// # Ok::<(), Box<dyn core::error::Error>>(())
    /// ```
    #[cfg(feature = "huffman_hpack")]
    #[inline]
    pub fn put_huffman_encoded<const LOWER_CASE: bool>(&mut self, v: &[u8]) -> Result<()> {
        self.0.put_huffman_encoded::<LOWER_CASE>(v)
    }

    /// Reads a varint as [`get_varint`](Self::get_varint) does, and also fails if the varint is
    /// wider than its value needs.
    ///
    /// It fails with [`VarintError::Short`] if no complete varint remains, and with
    /// [`VarintError::Overlong`] if a shorter varint holds the same value. Then the offset is
    /// unchanged.
    ///
    /// ```
    /// # use octets::*;
    /// # use octets::more::*;
    /// let mut bytes = [0x25, 0x40, 0x25];
    /// let mut cursor = OctetsMut::with_slice(&mut bytes);
    /// assert_eq!(cursor.get_varint_shortest(), Ok(37));
    /// assert_eq!(cursor.get_varint_shortest(), Err(VarintError::Overlong));
    /// assert_eq!(cursor.off(), 1);
    /// ```
    #[cfg(feature = "more")]
    #[inline]
    pub fn get_varint_shortest(&mut self) -> core::result::Result<u64, VarintError> {
        self.0.get_varint_shortest()
    }

    /// Consumes the cursor, and returns the whole buffer with everything that was written. The
    /// result lives as long as the borrow of the buffer.
    ///
    /// ```
    /// # use octets::*;
    /// # use octets::more::*;
    /// let mut bytes = [0, 0];
    /// let mut cursor = OctetsMut::with_slice(&mut bytes);
    /// cursor.put_u8(7)?;
    /// cursor.into_inner()[1] = 9;
    /// assert_eq!(bytes, [7, 9]);
    /// # Ok::<(), Box<dyn core::error::Error>>(())
    /// ```
    #[cfg(feature = "more")]
    #[inline]
    pub fn into_inner(self) -> &'a mut [u8] {
        self.0.into_inner()
    }
}
