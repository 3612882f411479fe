// Erased from crates/octets/src/cursor/writable/cursor_store.rt by tools/erase.
//! A cursor as the store of a decode: the decoded bytes overwrite the bytes of the cursor's buffer.
use rattle_std::{self as std, prelude::*};

use crate::cursor::Cursor;
use crate::cursor::buffer::Buffer;
use crate::huffman::decode::store::Store;

impl<B: Buffer> Store for Cursor<B> {
    #[inline]
    fn count(&self) -> usize {
        self.off()
    }

    #[inline]
    fn put(&mut self, byte: u8) {
        self.put_fitting(&[byte]);
    }

    #[inline(always)]
    fn put_word(&mut self, word: u64, count: usize) {
        self.put_fitting(&word.to_le_bytes()[..count]);
    }

    #[inline(always)]
    fn put_first(&mut self, bytes: &[u8; 32], count: usize) {
        self.put_fitting(&bytes[..count]);
    }
}
