// Erased from crates/octets/src/cursor/writable/encoded_writes.rt by tools/erase.
//! The Huffman encode into the cursor's buffer (RFC 7541, section 5.2).
use rattle_std::{self as std, prelude::*};

use crate::cursor::Cursor;
use crate::cursor::buffer::Buffer;
use crate::error::BufferTooShortError;
use crate::huffman::encode::put_words;

impl<B: Buffer> Cursor<B> {
    /// Writes the Huffman encoding of `v` (RFC 7541, section 5.2), or of `v` in lower case if
    /// `LOWER_CASE` is true, and advances the offset past it.
    ///
    /// It writes the encoding in pieces of eight bytes, then one piece of four bytes if at least
    /// four are left, then single bytes. It fails if fewer bytes remain than the encoding has. Then
    /// the pieces that fit before the first one that doesn't are written, and the offset is after
    /// them. To avoid that, call [`huffman_encoding_len`](crate::huffman_encoding_len) first, or
    /// write to a buffer that you can discard.
    ///
    /// ```
    /// # use octets_verified::*;
    /// let mut bytes = [0, 0, 0];
    /// let mut cursor = OctetsMut::with_slice(&mut bytes);
    /// cursor.put_huffman_encoded::<true>(b"AA")?;
    /// assert_eq!(cursor.buf(), [0x18, 0xff, 0]);
    /// # Ok::<(), Box<dyn core::error::Error>>(())
    /// ```
    #[inline(always)]
    pub fn put_huffman_encoded<const LOWER_CASE: bool>(
        &mut self,
        v: &[u8],
    ) -> Result<(), BufferTooShortError> {
        put_words(self, v, LOWER_CASE)
    }
}
