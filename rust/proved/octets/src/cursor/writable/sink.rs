// Erased from crates/octets/src/cursor/writable/sink.rt by tools/erase.
//! A cursor as a sink.
use rattle_std::{self as std, prelude::*};

use crate::cursor::Cursor;
use crate::cursor::buffer::Buffer;
use crate::error::BufferTooShortError;
use crate::writer::OctetsWriter;

/// For a cursor, the bytes before the offset are those that were written, and `room` is `cap()`.
impl<B: Buffer> OctetsWriter for Cursor<B> {
    type Error = BufferTooShortError;

    #[inline]
    fn put_bytes(&mut self, v: &[u8]) -> std::result::Result<(), BufferTooShortError> {
        Cursor::put_bytes(self, v)
    }
}
