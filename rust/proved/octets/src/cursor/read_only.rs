// Erased from crates/octets/src/cursor/read_only.rt by tools/erase.
//! The cursor over bytes that are only read.
use rattle_std::{self as std, prelude::*};

mod views;

use crate::cursor::Cursor;
use crate::slices::known_bytes;
use std::fmt;

/// A cursor over borrowed bytes, for reading. The views that it returns borrow the bytes and not
/// the cursor, so they can outlive the cursor.
pub type Octets<'a> = Cursor<&'a [u8]>;

impl<'a> Octets<'a> {
    /// Makes a cursor over `buf`, with the offset 0.
    ///
    /// ```
    /// # use octets_verified::*;
    /// let cursor = Octets::with_slice(&[1, 2, 3]);
    /// assert_eq!(cursor.off(), 0);
    /// assert_eq!(cursor.cap(), 3);
    /// ```
    #[inline(always)]
    pub fn with_slice(buf: &'a [u8]) -> Self {
        Cursor { buf, off: 0 }
    }

    /// Returns the whole buffer, including the bytes before the offset.
    ///
    /// ```
    /// # use octets_verified::*;
    /// let mut cursor = Octets::with_slice(&[1, 2, 3]);
    /// cursor.skip(2)?;
    /// assert_eq!(cursor.buf(), [1, 2, 3]);
    /// # Ok::<(), Box<dyn core::error::Error>>(())
    /// ```
    #[inline(always)]
    pub fn buf(&self) -> &'a [u8] {
        known_bytes(self.buf)
    }

    /// Returns the bytes from the offset on, with the lifetime of the buffer.
    #[inline(always)]
    pub(crate) fn unread(&self) -> &'a [u8] {
        let buf = self.buf;
        &buf[self.off..]
    }
}

impl fmt::Debug for Octets<'_> {
    /// Formats the cursor like a struct `Octets` with the fields `buf`, which is the whole buffer,
    /// and `off`.
    #[inline(always)]
    fn fmt(&self, f: &mut fmt::Formatter<'_>) -> fmt::Result {
        f.debug_struct("Octets")
            .field("buf", &self.buf)
            .field("off", &self.off)
            .finish()
    }
}
