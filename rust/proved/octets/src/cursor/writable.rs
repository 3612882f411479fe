// Erased from crates/octets/src/cursor/writable.rt by tools/erase.
//! The cursor over bytes that are also written.
use rattle_std::{self as std, prelude::*};

mod cursor_store;
mod cursor_target;
mod encoded_writes;
mod loans;
mod sink;
mod views;
mod writes;

use crate::cursor::Cursor;
use crate::cursor::buffer::Buffer;
use crate::slices::known_bytes;
use std::fmt;

/// A cursor over mutably borrowed bytes, for reading and writing. A view that the cursor returns
/// borrows the cursor until the last use of the view.
pub type OctetsMut<'a> = Cursor<&'a mut [u8]>;

impl<'a> OctetsMut<'a> {
    /// Makes a cursor over `buf`, with the offset 0.
    ///
    /// ```
    /// # use octets_verified::*;
    /// let mut bytes = [1, 2, 3];
    /// let cursor = OctetsMut::with_slice(&mut bytes);
    /// assert_eq!(cursor.off(), 0);
    /// assert_eq!(cursor.cap(), 3);
    /// ```
    #[inline]
    pub fn with_slice(buf: &'a mut [u8]) -> Self {
        Cursor { buf, off: 0 }
    }

    /// Consumes the cursor, and returns the whole buffer with everything that was written. The
    /// result lives as long as the borrow of the buffer.
    ///
    /// ```
    /// # use octets_verified::*;
    /// let mut bytes = [0, 0];
    /// let mut cursor = OctetsMut::with_slice(&mut bytes);
    /// cursor.put_u8(7)?;
    /// cursor.into_inner()[1] = 9;
    /// assert_eq!(bytes, [7, 9]);
    /// # Ok::<(), Box<dyn core::error::Error>>(())
    /// ```
    #[inline]
    pub fn into_inner(self) -> &'a mut [u8] {
        let Cursor { buf, off: _ } = self;
        buf
    }
}

impl<B: Buffer> Cursor<B> {
    /// Returns the whole buffer, including the bytes before the offset.
    ///
    /// ```
    /// # use octets_verified::*;
    /// let mut bytes = [1, 2, 3];
    /// let mut cursor = OctetsMut::with_slice(&mut bytes);
    /// cursor.skip(2)?;
    /// assert_eq!(cursor.buf(), [1, 2, 3]);
    /// # Ok::<(), Box<dyn core::error::Error>>(())
    /// ```
    #[inline]
    pub fn buf(&self) -> &[u8] {
        known_bytes(self.buf.as_slice())
    }
}

impl fmt::Debug for OctetsMut<'_> {
    /// Formats the cursor like a struct `OctetsMut` with the fields `buf`, which is the whole
    /// buffer, and `off`.
    #[inline]
    fn fmt(&self, f: &mut fmt::Formatter<'_>) -> fmt::Result {
        f.debug_struct("OctetsMut")
            .field("buf", &self.buf)
            .field("off", &self.off)
            .finish()
    }
}
