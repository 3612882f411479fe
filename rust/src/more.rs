//! The feature `more` adds what the verified library has and `octets` 0.3.7 lacks: calls that return an error if an
//! allocation fails, decoding into a slice, decoding of an encoding that comes in pieces, a reader that accepts varints
//! of the shortest width only, string literals of HPACK (RFC 7541, section 5.2), an [`OctetsWriter`] that grows, and writes
//! of numbers and varints to every [`OctetsWriter`] (see [`OctetsWriterExt`]).
//! String literals of QPACK with a length prefix of other than seven bits aren't covered.
//!
//! This program writes the string literals of a header block to a vector, and reads them:
//!
//! ```
//! use octets::{Octets, more};
//!
//! let mut block = Vec::new();
//! more::put_string::<true, _>(&mut block, b"Content-Type")?;
//! more::put_string::<false, _>(&mut block, b"text/html")?;
//! let strings = Octets::with_slice(&block).get_strings(100);
//! assert_eq!(strings.unwrap(), [&b"content-type"[..], b"text/html"]);
//! # Ok::<(), more::AllocError>(())
//! ```
//!
//! # An encoding that comes in pieces
//!
//! A [`Decoder`] decodes a Huffman-encoded string (RFC 7541, section 5.2) as it arrives. It has one byte, which you keep
//! between two pieces, and allocates nothing. However the string is cut, the value is that of one decode:
//!
//! ```
//! use octets::more::Decoder;
//!
//! let (mut decoder, mut value, mut len) = (Decoder::new(), [0; 16], 0);
//! for piece in [&b"\xf1\xe3\xc2"[..], b"\xe5\xf2\x3a\x6b\xa0", b"\xab\x90\xf4\xff"] {
//!     let progress = decoder.decode(piece, &mut value[len..])?;
//!     assert_eq!(progress.read, piece.len(), "the value has more than 16 bytes");
//!     len += progress.written;
//! }
//! decoder.finish()?;
//! assert_eq!(value[..len], *b"www.example.com");
//! # Ok::<(), Box<dyn std::error::Error>>(())
//! ```
//!
//! If `decode` reads less than the piece, call it again with the rest, and with space for two bytes. [`decode_pieces`]
//! decodes all pieces in one call.
use crate::writer::Sink;
use crate::{Octets, OctetsMut, OctetsWriter};
use alloc::vec::Vec;
use core::result::Result;
use octets_literal as literal;
use rattle_std::alloc::Global;

pub use crate::sink_writes::OctetsWriterExt;
pub use octets_code::Steps;
pub use octets_literal::{LiteralError, MAX_LITERAL_LEN};
pub use octets_pieces::{Decoder, EosError, IncompleteError, PiecesError, Progress, decode_pieces};
pub use octets_verified as verified;
pub use octets_verified::{DecodeError, IntoError, VarintError, huffman_text_len, varint_fits};
pub use rattle_std::alloc::AllocError;

/// The number of this release, which CHANGELOG.md describes. The version in Cargo.toml is that of the crate `octets` whose
/// API this crate has, so that Cargo accepts it as a replacement.
pub const RELEASE: u32 = 3;

impl<'a> Octets<'a> {
    /// Returns the bytes that remain, from the offset on. They live as long as the buffer, also if the cursor doesn't.
    ///
    /// ```
    /// # use octets::*;
    /// let bytes = [1, 2, 3];
    /// let rest = {
    ///     let mut cursor = Octets::with_slice(&bytes);
    ///     cursor.skip(1)?;
    ///     cursor.remaining()
    /// };
    /// assert_eq!(rest, [2, 3]);
    /// # Ok::<(), BufferTooShortError>(())
    /// ```
    #[inline]
    pub fn remaining(&self) -> &'a [u8] {
        &self.buf()[self.off()..]
    }
}

/// A clone is a cursor over the same buffer, at the same offset.
impl Clone for Octets<'_> {
    #[inline]
    fn clone(&self) -> Self {
        let mut cursor = Octets::with_slice(self.buf());
        cursor.skip(self.off()).expect("the offset is within the buffer");
        cursor
    }
}

/// Returns a number of bytes that suffices for the value of a Huffman encoding of `len` bytes: 8 / 5 of `len`, since the
/// shortest codes have five bits. For example, it is the size of a buffer for
/// [`get_huffman_decoded_into`](Octets::get_huffman_decoded_into). If `usize` can't hold it, it returns `usize::MAX`.
///
/// ```
/// # use octets::{*, more::*};
/// // Five bytes of zero bits are eight codes of `0`.
/// assert_eq!(huffman_decoded_len_max(5), 8);
/// assert_eq!(Octets::with_slice(&[0; 5]).get_huffman_decoded()?, b"00000000");
/// # Ok::<(), BufferTooShortError>(())
/// ```
#[inline]
pub const fn huffman_decoded_len_max(len: usize) -> usize {
    (len / 5).saturating_mul(8).saturating_add(len % 5 * 8 / 5)
}

impl Octets<'_> {
    /// Decodes as [`get_huffman_decoded`](Self::get_huffman_decoded) does, but returns an error if the allocation fails.
    ///
    /// It fails with [`DecodeError::Memory`] if the allocation fails; then the offset is unchanged. It fails with
    /// [`DecodeError::Short`] if the bytes aren't a Huffman-encoded string; then the offset is where `get_huffman_decoded`
    /// leaves it.
    ///
    /// ```
    /// # use octets::{*, more::*};
    /// assert_eq!(Octets::with_slice(&[0x64, 0x02]).try_get_huffman_decoded()?, b"302");
    /// # Ok::<(), DecodeError>(())
    /// ```
    #[inline]
    pub fn try_get_huffman_decoded(&mut self) -> Result<Vec<u8>, DecodeError> {
        self.try_get_huffman_decoded_with_max_length(usize::MAX)
    }

    /// Decodes as [`try_get_huffman_decoded`](Self::try_get_huffman_decoded) does, and also fails with
    /// [`DecodeError::Short`] if the value has more than `max_len` bytes.
    ///
    /// ```
    /// # use octets::{*, more::*};
    /// let mut cursor = Octets::with_slice(&[0x64, 0x02]);
    /// let decoded = cursor.try_get_huffman_decoded_with_max_length(2);
    /// assert_eq!(decoded, Err(DecodeError::Short(BufferTooShortError)));
    /// ```
    #[inline]
    pub fn try_get_huffman_decoded_with_max_length(&mut self, max_len: usize) -> Result<Vec<u8>, DecodeError> {
        Ok(self.0.get_huffman_decoded_with_max_length(Global, max_len)?.into())
    }

    /// Decodes as [`try_get_huffman_decoded_with_max_length`](Self::try_get_huffman_decoded_with_max_length) does, and adds
    /// to `steps` the number of steps of a decoder that reads four bits in each step: at most two for each byte that
    /// remains. Use the sum to bound the work that a peer can cause.
    ///
    /// ```
    /// # use octets::{*, more::*};
    /// let mut steps = Steps::new();
    /// Octets::with_slice(&[0x64, 0x02]).try_get_huffman_decoded_counted(9, &mut steps)?;
    /// assert_eq!(steps.count(), 4);
    /// # Ok::<(), DecodeError>(())
    /// ```
    #[inline]
    pub fn try_get_huffman_decoded_counted(
        &mut self,
        max_len: usize,
        steps: &mut Steps,
    ) -> Result<Vec<u8>, DecodeError> {
        Ok(self.0.get_huffman_decoded_counted(Global, max_len, steps)?.into())
    }

    /// Reads a string literal of HPACK (RFC 7541, section 5.2) whose value has at most `max_len` bytes, and advances the
    /// offset past it.
    ///
    /// If it fails, the [`LiteralError`] gives the reason, and the offset is unchanged.
    ///
    /// ```
    /// # use octets::{*, more::*};
    /// let mut cursor = Octets::with_slice(b"\x82\x64\x02\x02ab");
    /// assert_eq!(cursor.get_string(9)?, b"302");
    /// assert_eq!(cursor.get_string(9)?, b"ab");
    /// assert_eq!(cursor.get_string(9), Err(LiteralError::Short));
    /// # Ok::<(), LiteralError>(())
    /// ```
    #[inline]
    pub fn get_string(&mut self, max_len: usize) -> Result<Vec<u8>, LiteralError> {
        Ok(literal::get_string(Global, &mut self.0, max_len)?.into())
    }

    /// Reads a string literal as [`get_string`](Self::get_string) does, into the first bytes of `out`, and returns how many
    /// bytes of `out` it wrote. It allocates nothing.
    ///
    /// If it fails, the [`LiteralError`] gives the reason, and the offset is unchanged. `out` is unchanged too, with one
    /// exception: if a Huffman-encoded value can't be decoded, `out` begins with the bytes that were decoded before the
    /// error.
    ///
    /// ```
    /// # use octets::{*, more::*};
    /// let mut out = [0; 4];
    /// assert_eq!(Octets::with_slice(b"\x82\x64\x02").get_string_into(&mut out)?, 3);
    /// assert_eq!(out, *b"302\0");
    /// # Ok::<(), LiteralError>(())
    /// ```
    #[inline]
    pub fn get_string_into(&mut self, out: &mut [u8]) -> Result<usize, LiteralError> {
        literal::get_string_into(&mut self.0, out)
    }

    /// Reads string literals up to the end of the buffer, and returns their values, each of at most `max_len` bytes.
    ///
    /// If it fails, the [`LiteralError`] gives the reason, and the offset is before the literal that failed. There is one
    /// exception: if an allocation for the list of values fails, the offset is after the literal that was read last.
    ///
    /// ```
    /// # use octets::{*, more::*};
    /// let strings = Octets::with_slice(b"\x82\x64\x02\x02ab").get_strings(9)?;
    /// assert_eq!(strings, [&b"302"[..], b"ab"]);
    /// # Ok::<(), LiteralError>(())
    /// ```
    pub fn get_strings(&mut self, max_len: usize) -> Result<Vec<Vec<u8>>, LiteralError> {
        let strings = literal::get_strings(Global, &mut self.0, max_len)?;
        let mut values = Vec::new();
        values.try_reserve_exact(strings.len()).map_err(|_| LiteralError::OutOfMemory)?;
        values.extend(strings.into_iter().map(Vec::from));
        Ok(values)
    }
}

impl OctetsMut<'_> {
    /// Writes the string literal of `v` (RFC 7541, section 5.2), or of `v` in lower case if `LOWER_CASE` is true, and
    /// advances the offset past it. The literal is the length, in as few bytes as possible, and then the Huffman encoding
    /// if that is shorter than `v`, or otherwise the bytes themselves.
    ///
    /// It fails if fewer bytes remain than the literal has. Then nothing is written, and the offset is unchanged.
    ///
    /// # Panics
    ///
    /// It panics if `v` has more than [`MAX_LITERAL_LEN`] bytes.
    ///
    /// ```
    /// # use octets::{*, more::*};
    /// let mut bytes = [0; 4];
    /// OctetsMut::with_slice(&mut bytes).put_string::<true>(b"AA")?;
    /// assert_eq!(bytes, *b"\x02aa\0");
    /// # Ok::<(), BufferTooShortError>(())
    /// ```
    #[inline]
    pub fn put_string<const LOWER_CASE: bool>(&mut self, v: &[u8]) -> crate::Result<()> {
        literal::write_string::<LOWER_CASE>(&mut self.0, literal_value(v))
    }
}

/// Writes to `sink` the string literal of `v` (RFC 7541, section 5.2), or of `v` in lower case if `LOWER_CASE` is true, as
/// [`OctetsMut::put_string`] writes it.
///
/// It stops at the first error of the sink and returns it. What the sink wrote before remains written.
///
/// # Panics
///
/// It panics if `v` has more than [`MAX_LITERAL_LEN`] bytes.
///
/// ```
/// # use octets::more::*;
/// let mut bytes = Vec::new();
/// put_string::<false, _>(&mut bytes, b"302")?;
/// assert_eq!(bytes, b"\x82\x64\x02");
/// # Ok::<(), AllocError>(())
/// ```
#[inline]
pub fn put_string<const LOWER_CASE: bool, W: OctetsWriter>(sink: &mut W, v: &[u8]) -> Result<(), W::Error> {
    literal::put_string::<LOWER_CASE, _>(&mut Sink(sink), literal_value(v))
}

/// Returns `v` if it has at most [`MAX_LITERAL_LEN`] bytes, and panics otherwise.
fn literal_value(v: &[u8]) -> &[u8] {
    assert!(is_literal_len(v.len()), "value is too long for a string literal");
    v
}

/// Whether the value of a string literal may have so many bytes.
fn is_literal_len(len: usize) -> bool {
    len <= MAX_LITERAL_LEN
}

/// A vector appends all bytes. If the allocation fails, it returns an error and is unchanged.
impl OctetsWriter for Vec<u8> {
    type Error = AllocError;

    #[inline]
    fn put_bytes(&mut self, v: &[u8]) -> Result<(), AllocError> {
        if self.capacity() - self.len() < v.len() {
            grow(self, v.len())?;
        }
        self.extend_from_slice(v);
        Ok(())
    }
}

/// Reserves memory for so many more bytes. It is `inline` so that each crate compiles it, and LLVM sees that it keeps no
/// pointer to the vector; and `cold` so that it stays a call.
#[cold]
#[inline]
fn grow(bytes: &mut Vec<u8>, more: usize) -> Result<(), AllocError> {
    bytes.try_reserve(more).map_err(|_| AllocError)
}

#[cfg(test)]
mod tests {
    use super::is_literal_len;

    #[test]
    fn the_longest_value_of_a_literal_has_a_length_of_32_bits() {
        assert!(is_literal_len(0));
        assert!(is_literal_len(4_294_967_295));
        #[cfg(target_pointer_width = "64")]
        assert!(!is_literal_len(4_294_967_296));
    }
}
