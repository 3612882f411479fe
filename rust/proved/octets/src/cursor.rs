// Erased from crates/octets/src/cursor.rt by tools/erase.
//! The cursor, over bytes that are only read or over bytes that are also written.
use rattle_std::{self as std, prelude::*};

pub mod buffer;
mod decode;
mod moves;
pub mod read_only;
mod reads;
pub mod writable;

use crate::memory::Request;
use crate::slices::vec_of;
use buffer::Bytes;
use std::alloc::{AllocError, Global};

/// A buffer and an offset into it. Every read and write begins at the offset.
///
/// A call that fails changes no byte and leaves the offset where it was, with three exceptions. A
/// call that reads a length and then as many bytes leaves the offset after the length, if only the
/// length was complete. The documentation of each Huffman decode says where the decode leaves the
/// offset. A Huffman encode that doesn't fit leaves a prefix of the encoding in the buffer, and the
/// offset after that prefix.
///
/// # Invariant
///
/// - `off ≤ length (B.bytes buf)`
pub struct Cursor<B: Bytes> {
    pub(crate) buf: B,
    pub(crate) off: usize,
}

/// Construction, position and contents.
impl<B: Bytes> Cursor<B> {
    /// Returns a cursor over a buffer of any type, at its start. For a borrowed slice call
    /// `with_slice`.
    ///
    /// ```
    /// # use octets_verified::*;
    /// let mut bytes = [1, 2, 3];
    /// let mut cursor = Cursor::with_buffer(&mut bytes[..]);
    /// assert_eq!(cursor.get_u16()?, 0x0102);
    /// # Ok::<(), Box<dyn core::error::Error>>(())
    /// ```
    #[inline(always)]
    pub fn with_buffer(buf: B) -> Self {
        Self { buf, off: 0 }
    }

    /// Returns the buffer, with everything that was written.
    ///
    /// ```
    /// # use octets_verified::*;
    /// let mut bytes = [1, 2, 3];
    /// let mut cursor = OctetsMut::with_slice(&mut bytes);
    /// cursor.write_u8(9)?;
    /// assert_eq!(&*cursor.into_buffer(), [9, 2, 3]);
    /// # Ok::<(), Box<dyn core::error::Error>>(())
    /// ```
    #[inline(always)]
    pub fn into_buffer(self) -> B {
        let Cursor { off: _, buf } = self;
        buf
    }

    /// Returns the number of bytes that remain, from the offset to the end of the buffer.
    ///
    /// ```
    /// # use octets_verified::*;
    /// let mut cursor = Octets::with_slice(&[1, 2, 3]);
    /// cursor.skip(2)?;
    /// assert_eq!(cursor.cap(), 1);
    /// # Ok::<(), Box<dyn core::error::Error>>(())
    /// ```
    #[inline(always)]
    pub fn cap(&self) -> usize {
        self.buf.len() - self.off
    }

    /// Returns the number of bytes of the whole buffer, including those before the offset.
    ///
    /// ```
    /// # use octets_verified::*;
    /// let mut cursor = Octets::with_slice(&[1, 2, 3]);
    /// cursor.skip(2)?;
    /// assert_eq!(cursor.len(), 3);
    /// # Ok::<(), Box<dyn core::error::Error>>(())
    /// ```
    #[inline(always)]
    pub fn len(&self) -> usize {
        self.buf.len()
    }

    /// Returns whether the whole buffer has no bytes. A cursor at the end of a buffer with bytes
    /// isn't empty: test whether [`cap`](Self::cap) is 0 to find the end.
    ///
    /// ```
    /// # use octets_verified::*;
    /// let mut cursor = Octets::with_slice(&[1]);
    /// cursor.skip(1)?;
    /// assert!(!cursor.is_empty());
    /// # Ok::<(), Box<dyn core::error::Error>>(())
    /// ```
    #[inline(always)]
    pub fn is_empty(&self) -> bool {
        self.buf.as_slice().is_empty()
    }

    /// Returns the offset, which is the number of bytes of the buffer before the next byte that is
    /// read or written.
    ///
    /// ```
    /// # use octets_verified::*;
    /// let mut cursor = Octets::with_slice(&[1, 2, 3]);
    /// cursor.skip(2)?;
    /// assert_eq!(cursor.off(), 2);
    /// # Ok::<(), Box<dyn core::error::Error>>(())
    /// ```
    #[inline(always)]
    pub fn off(&self) -> usize {
        self.off
    }

    /// Returns the bytes from the offset on.
    ///
    /// ```
    /// # use octets_verified::*;
    /// let mut cursor = Octets::with_slice(&[1, 2, 3]);
    /// cursor.skip(2)?;
    /// assert_eq!(cursor.as_ref(), [3]);
    /// # Ok::<(), Box<dyn core::error::Error>>(())
    /// ```
    #[inline(always)]
    pub fn as_ref(&self) -> &[u8] {
        &self.buf.as_slice()[self.off..]
    }

    /// Copies the bytes from the offset on into a new `Vec`. If no byte remains, nothing is
    /// allocated.
    ///
    /// ```
    /// # use octets_verified::*;
    /// # let alloc = rattle_std::alloc::Global;
    /// let mut cursor = Octets::with_slice(&[1, 2, 3]);
    /// cursor.skip(1)?;
    /// assert_eq!(&*cursor.to_vec(alloc)?, [2, 3]);
    /// # Ok::<(), Box<dyn core::error::Error>>(())
    /// ```
    #[inline(always)]
    pub fn to_vec(&self, alloc: Global) -> Result<Vec<u8>, AllocError> {
        vec_of(Request::to(alloc), self.as_ref())
    }

    #[doc(hidden)]
    #[inline]
    pub fn rattle_to_vec(&self, alloc: Global) -> Result<Vec<u8>, AllocError> {
        self.to_vec(alloc)
    }
}

impl<B: Bytes> PartialEq for Cursor<B> {
    /// Returns whether the whole buffers are equal and the offsets are equal.
    ///
    /// ```
    /// # use octets_verified::*;
    /// let cursor = Octets::with_slice(&[1, 2, 3]);
    /// assert_eq!(cursor, Octets::with_slice(&[1, 2, 3]));
    /// ```
    #[inline(always)]
    fn eq(&self, other: &Self) -> bool {
        self.off == other.off && self.buf.as_slice() == other.buf.as_slice()
    }
}

impl<B: Bytes> Eq for Cursor<B> {
}
