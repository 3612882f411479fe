//! The methods of the cursor for writing whose signature is another one than that of the verified method.
use super::OctetsMut;
use crate::{BufferTooShortError, OctetsWriter, Result, unfit};

impl<'a> OctetsMut<'a> {
    /// Returns a mutable slice of the next `len` bytes. The slice lives as long as the borrow of the buffer.
    ///
    /// It fails if fewer than `len` bytes remain.
    ///
    /// ```
    /// # use octets::*;
    /// let mut bytes = [1, 2, 3];
    /// OctetsMut::with_slice(&mut bytes).slice(2)?.reverse();
    /// assert_eq!(bytes, [2, 1, 3]);
    /// # Ok::<(), BufferTooShortError>(())
    /// ```
    ///
    /// The cursor can't be used after this call, even if the slice isn't used any more:
    ///
    /// ```compile_fail,E0499
    /// # use octets::*;
    /// let mut bytes = [1, 2, 3];
    /// let mut cursor = OctetsMut::with_slice(&mut bytes);
    /// cursor.slice(2)?.reverse();
    /// cursor.skip(2)?;
    /// # Ok::<(), BufferTooShortError>(())
    /// ```
    #[inline]
    pub fn slice(&'a mut self, len: usize) -> Result<&'a mut [u8]> {
        self.0.slice(len)
    }

    /// Returns a mutable slice of the last `len` bytes of the buffer. The slice lives as long as the borrow of the
    /// buffer.
    ///
    /// It fails if fewer than `len` bytes remain from the offset on.
    ///
    /// ```
    /// # use octets::*;
    /// let mut bytes = [1, 2, 3];
    /// OctetsMut::with_slice(&mut bytes).slice_last(2)?.reverse();
    /// assert_eq!(bytes, [1, 3, 2]);
    /// # Ok::<(), BufferTooShortError>(())
    /// ```
    ///
    /// As after [`slice`](Self::slice), the cursor can't be used after this call.
    #[inline]
    pub fn slice_last(&'a mut self, len: usize) -> Result<&'a mut [u8]> {
        self.0.slice_last(len)
    }

    /// Writes the shortest varint (RFC 9000, section 16) that holds `v`, advances the offset past it, and returns a mutable
    /// slice of the written bytes.
    ///
    /// It fails if fewer bytes remain than that varint has. Then nothing is written, and the offset is unchanged.
    ///
    /// # Panics
    ///
    /// It panics if `v` is greater than [`MAX_VAR_INT`](crate::MAX_VAR_INT). A hand-written comparison checks this before it
    /// calls the verified code.
    ///
    /// ```
    /// # use octets::*;
    /// let mut bytes = [0; 3];
    /// OctetsMut::with_slice(&mut bytes).put_varint(15293)?;
    /// assert_eq!(bytes, [0x7b, 0xbd, 0]);
    /// # Ok::<(), BufferTooShortError>(())
    /// ```
    #[inline]
    pub fn put_varint(&mut self, v: u64) -> Result<&mut [u8]> {
        self.0.put_varint(unfit::held(v))
    }

    /// Writes `v` as a varint (RFC 9000, section 16) of `len` bytes, where `len` is 1, 2, 4 or 8, advances the offset past
    /// it, and returns a mutable slice of the written bytes.
    ///
    /// It fails if fewer than `len` bytes remain. Then nothing is written, and the offset is unchanged.
    ///
    /// If a varint of `len` bytes can't hold `v`, the encoded value is wrong: the call writes the least significant `len`
    /// bytes of `v`, and sets the bits of the width in the first of them. `octets` 0.3.7 does the same.
    ///
    /// # Panics
    ///
    /// It panics if at least `len` bytes remain and `len` isn't 1, 2, 4 or 8.
    ///
    /// ```
    /// # use octets::*;
    /// let mut bytes = [0; 4];
    /// OctetsMut::with_slice(&mut bytes).put_varint_with_len(37, 4)?;
    /// assert_eq!(bytes, [0x80, 0, 0, 37]);
    /// # Ok::<(), BufferTooShortError>(())
    /// ```
    #[inline]
    pub fn put_varint_with_len(&mut self, v: u64, len: usize) -> Result<&mut [u8]> {
        if !matches!(len, 1 | 2 | 4 | 8) {
            unfit::refuse_width(len, self.0.cap())?;
        }
        self.0.put_marked(v, len)
    }
}

/// Returns the bytes that remain, from the offset on.
impl AsMut<[u8]> for OctetsMut<'_> {
    #[inline]
    fn as_mut(&mut self) -> &mut [u8] {
        self.0.as_mut()
    }
}

impl OctetsWriter for OctetsMut<'_> {
    type Error = BufferTooShortError;

    #[inline]
    fn put_bytes(&mut self, v: &[u8]) -> Result<()> {
        self.0.put_bytes(v)
    }

    /// Calls [`OctetsMut::put_huffman_encoded`], which writes the same pieces as the provided method.
    #[cfg(feature = "huffman_hpack")]
    #[inline]
    fn put_huffman_encoded<const LOWER_CASE: bool>(&mut self, v: &[u8]) -> Result<()> {
        self.0.put_huffman_encoded::<LOWER_CASE>(v)
    }
}
