// Erased from crates/octets/src/huffman/encode/target.rt by tools/erase.
//! The targets of an encode: a sink, about which a proof knows only the law of its trait, or a
//! cursor, of which it also knows the bytes after the offset (`cursor/writable/cursor_target.rt`).
use rattle_std::{self as std, prelude::*};

use crate::writer::OctetsWriter;

/// A target takes the pieces of an encode.
pub(crate) trait Target {
    type Error;

    /// Appends the piece, or fails after it has appended a prefix of the piece.
    fn put_piece(&mut self, piece: &[u8]) -> Result<(), Self::Error>;

    /// Appends the `len` most significant bytes of `word` at once, most significant byte first, if
    /// the target can do that, and returns whether it did.
    ///
    /// # Requires
    ///
    /// - `1 ≤ len`
    /// - `len ≤ 8`
    fn put_at_once(&mut self, word: u64, len: usize) -> bool;
}

/// A sink, as a target that gives each piece to `put_bytes`.
pub(super) struct SinkTarget<'a, W: OctetsWriter>(pub(super) &'a mut W);

impl<W: OctetsWriter> Target for SinkTarget<'_, W> {
    type Error = W::Error;

    #[inline]
    fn put_piece(&mut self, piece: &[u8]) -> Result<(), W::Error> {
        self.0.put_bytes(piece)
    }

    /// A sink gets its pieces one by one, so this appends nothing.
    #[inline]
    fn put_at_once(&mut self, _word: u64, _len: usize) -> bool {
        false
    }
}
