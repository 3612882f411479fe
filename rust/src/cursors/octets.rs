//! The decodes of the cursor for reading, which the feature `huffman_hpack` adds.
use super::Octets;
use crate::{BufferTooShortError, Result};
use alloc::vec::Vec;

impl Octets<'_> {
    /// Decodes all bytes that remain, from the offset on, as one Huffman-encoded string (RFC 7541, section 5.2), and
    /// advances the offset to the end.
    ///
    /// It fails if the bytes aren't a Huffman-encoded string. Then the offset is after the byte at which the decoder found
    /// the error, which may be the last byte. If the allocation fails the program ends, as it does with vectors of Rust.
    ///
    /// ```
    /// # use octets::*;
    /// assert_eq!(Octets::with_slice(&[0x64, 0x02]).get_huffman_decoded()?, b"302");
    /// assert!(Octets::with_slice(&[0x64, 0xff, 0xff]).get_huffman_decoded().is_err());
    /// # Ok::<(), BufferTooShortError>(())
    /// ```
    #[inline]
    pub fn get_huffman_decoded(&mut self) -> Result<Vec<u8>> {
        self.get_huffman_decoded_with_max_length(usize::MAX)
    }

    /// Decodes as [`get_huffman_decoded`](Self::get_huffman_decoded) does, and also fails if the value has more than
    /// `max_len` bytes. Use it for data that comes from a peer.
    ///
    /// It reserves memory for at most `max_len` bytes, and for at most two bytes for each byte that remains, and fills it
    /// with zeros before it reads a byte.
    ///
    /// ```
    /// # use octets::*;
    /// let mut cursor = Octets::with_slice(&[0x64, 0x02]);
    /// assert!(cursor.get_huffman_decoded_with_max_length(2).is_err());
    /// ```
    #[inline]
    #[expect(clippy::slow_vector_initialization, reason = "`calloc`, which `vec![0; room]` calls, takes longer for few bytes")]
    pub fn get_huffman_decoded_with_max_length(&mut self, max_len: usize) -> Result<Vec<u8>> {
        // A code has at least five bits, so no value has more than two bytes for each byte of its encoding.
        let room = self.cap().saturating_mul(2).min(max_len);
        let mut value = Vec::with_capacity(room);
        value.resize(room, 0);
        let len = self.0.get_huffman_decoded_into(&mut value).map_err(|_| BufferTooShortError)?;
        value.truncate(len);
        Ok(value)
    }
}
