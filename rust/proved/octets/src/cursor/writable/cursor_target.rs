// Erased from crates/octets/src/cursor/writable/cursor_target.rt by tools/erase.
//! A cursor as the target of an encode. Unlike for a sink, a proof also knows the bytes after the
//! offset.
use rattle_std::{self as std, prelude::*};

use crate::cursor::Cursor;
use crate::cursor::buffer::Buffer;
use crate::error::BufferTooShortError;
use crate::huffman::encode::front::put_front;
use crate::huffman::encode::target::Target;

impl<B: Buffer> Target for Cursor<B> {
    type Error = BufferTooShortError;

    #[inline]
    fn put_piece(&mut self, piece: &[u8]) -> Result<(), BufferTooShortError> {
        self.put_bytes(piece)
    }

    /// Writes exactly `len` bytes, if they fit, and reads none of the buffer.
    #[inline]
    fn put_at_once(&mut self, word: u64, len: usize) -> bool {
        // The offset is never past the end, but rustc can't know that. After this comparison it
        // leaves out the bounds checks below.
        if self.off > self.buf.len() || self.cap() < len {
            return false;
        }
        let from = self.off;
        put_front(self.buf.part_mut(from, len), word);
        self.off = from + len;
        true
    }
}
