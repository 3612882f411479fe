//! Numbers, varints and byte strings for every sink, which the feature `more` adds.
use crate::writer::Sink;
use crate::{OctetsWriter, unfit};
use core::result::Result;
use octets_verified as proved;

/// Writes of numbers, varints (RFC 9000, section 16) and byte strings to every [`OctetsWriter`], so also to a `Vec<u8>`.
///
/// ```
/// use octets::more::OctetsWriterExt;
///
/// let mut frame = Vec::new();
/// frame.write_varint(6)?;
/// frame.write_bytes_with_varint_length(b"hello")?;
/// assert_eq!(frame, b"\x06\x05hello");
/// # Ok::<(), octets::more::AllocError>(())
/// ```
///
/// A number or a varint is one call of the sink's `put_bytes`. If it fails, the method returns its error, and the sink may
/// have written a prefix of the bytes, as its `put_bytes` documents. A cursor and a vector write all bytes of a number or
/// none.
///
/// The methods are [verified](crate#what-is-verified) for a sink whose `put_bytes` appends all of its argument if it
/// returns `Ok`, and a prefix if it returns `Err`. A hand-written comparison rejects a number or a length that no varint
/// holds.
pub trait OctetsWriterExt: OctetsWriter {
    /// Writes `v` as one byte.
    ///
    /// ```
    /// # use octets::{*, more::*};
    /// let mut bytes = Vec::new();
    /// bytes.write_u8(7)?;
    /// assert_eq!(bytes, [7]);
    /// # Ok::<(), AllocError>(())
    /// ```
    #[inline]
    fn write_u8(&mut self, v: u8) -> Result<(), Self::Error> {
        proved::write_u8(&mut Sink(self), v)
    }

    /// Writes `v` as two bytes, most significant byte first.
    ///
    /// ```
    /// # use octets::{*, more::*};
    /// let mut bytes = Vec::new();
    /// bytes.write_u16(0x0102)?;
    /// assert_eq!(bytes, [1, 2]);
    /// # Ok::<(), AllocError>(())
    /// ```
    #[inline]
    fn write_u16(&mut self, v: u16) -> Result<(), Self::Error> {
        proved::write_u16(&mut Sink(self), v)
    }

    /// Writes the least significant three bytes of `v`, most significant byte first.
    ///
    /// ```
    /// # use octets::{*, more::*};
    /// let mut bytes = Vec::new();
    /// bytes.write_u24(0x09010203)?;
    /// assert_eq!(bytes, [1, 2, 3]);
    /// # Ok::<(), AllocError>(())
    /// ```
    #[inline]
    fn write_u24(&mut self, v: u32) -> Result<(), Self::Error> {
        proved::write_u24(&mut Sink(self), v)
    }

    /// Writes `v` as four bytes, most significant byte first.
    ///
    /// ```
    /// # use octets::{*, more::*};
    /// let mut bytes = Vec::new();
    /// bytes.write_u32(0x01020304)?;
    /// assert_eq!(bytes, [1, 2, 3, 4]);
    /// # Ok::<(), AllocError>(())
    /// ```
    #[inline]
    fn write_u32(&mut self, v: u32) -> Result<(), Self::Error> {
        proved::write_u32(&mut Sink(self), v)
    }

    /// Writes `v` as eight bytes, most significant byte first.
    ///
    /// ```
    /// # use octets::{*, more::*};
    /// let mut bytes = Vec::new();
    /// bytes.write_u64(0x0102)?;
    /// assert_eq!(bytes, [0, 0, 0, 0, 0, 0, 1, 2]);
    /// # Ok::<(), AllocError>(())
    /// ```
    #[inline]
    fn write_u64(&mut self, v: u64) -> Result<(), Self::Error> {
        proved::write_u64(&mut Sink(self), v)
    }

    /// Writes the shortest varint that holds `v`.
    ///
    /// # Panics
    ///
    /// It panics if `v` is greater than [`MAX_VAR_INT`](crate::MAX_VAR_INT).
    ///
    /// ```
    /// # use octets::{*, more::*};
    /// let mut bytes = Vec::new();
    /// bytes.write_varint(15293)?;
    /// assert_eq!(bytes, [0x7b, 0xbd]);
    /// # Ok::<(), AllocError>(())
    /// ```
    #[inline]
    fn write_varint(&mut self, v: u64) -> Result<(), Self::Error> {
        proved::write_varint(&mut Sink(self), unfit::held(v))
    }

    /// Writes `v` as a varint of `len` bytes.
    ///
    /// # Panics
    ///
    /// It panics if `len` isn't 1, 2, 4 or 8, or if a varint of `len` bytes can't hold `v`.
    /// [`varint_fits`](crate::more::varint_fits) tells.
    ///
    /// ```
    /// # use octets::{*, more::*};
    /// let mut bytes = Vec::new();
    /// bytes.write_varint_with_len(37, 4)?;
    /// assert_eq!(bytes, [0x80, 0, 0, 37]);
    /// # Ok::<(), AllocError>(())
    /// ```
    #[inline]
    fn write_varint_with_len(&mut self, v: u64, len: usize) -> Result<(), Self::Error> {
        assert!(proved::varint_fits(v, len), "value is too large for varint");
        proved::write_varint_with_len(&mut Sink(self), v, len)
    }

    /// Writes the length of `v` as the shortest varint that holds it, and then `v`.
    ///
    /// It makes one call of `put_bytes` for the length, and one for `v` if that isn't empty. If the second call fails, the
    /// length remains written.
    ///
    /// # Panics
    ///
    /// It panics if `v` has more than [`MAX_VAR_INT`](crate::MAX_VAR_INT) bytes.
    ///
    /// ```
    /// # use octets::{*, more::*};
    /// let mut bytes = Vec::new();
    /// bytes.write_bytes_with_varint_length(b"ab")?;
    /// assert_eq!(bytes, b"\x02ab");
    /// # Ok::<(), AllocError>(())
    /// ```
    #[inline]
    fn write_bytes_with_varint_length(&mut self, v: &[u8]) -> Result<(), Self::Error> {
        unfit::held(v.len() as u64);
        proved::write_bytes_with_varint_length(&mut Sink(self), v)
    }
}

impl<W: OctetsWriter + ?Sized> OctetsWriterExt for W {}
