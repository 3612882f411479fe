// Erased from crates/octets_c/src/cursors.rt by tools/erase.
//! Cursors at an offset.
use rattle_std::{self as std, prelude::*};

use octets::{BufferTooShortError, Octets, Result};

/// Returns a cursor that has passed `off` bytes. It fails if the buffer has fewer.
#[inline]
pub(crate) fn at(buffer: &[u8], off: usize) -> Result<Octets<'_>> {
    let mut cursor = Octets::with_slice(buffer);
    cursor.skip(off)?;
    Ok(cursor)
}

/// Returns a cursor that has passed `off` bytes, if at least one more byte remains. If this is
/// inlined, a read of the next byte doesn't test again whether the byte is there.
#[inline]
pub(crate) fn at_byte(buffer: &[u8], off: usize) -> Result<Octets<'_>> {
    if buffer.len() <= off {
        return Err(BufferTooShortError);
    }
    at(buffer, off)
}

/// Returns a cursor over the byte at `off` and the `more` bytes after it. It fails if one of them
/// is missing.
///
/// If this is inlined, a read of these bytes doesn't test again whether they are there, and a loop
/// over it computes the difference once.
#[inline]
pub(crate) fn over(buffer: &[u8], off: usize, more: usize) -> Result<Octets<'_>> {
    if buffer.len().saturating_sub(more) <= off {
        return Err(BufferTooShortError);
    }
    Ok(Octets::with_slice(&buffer[off..off + more + 1]))
}

/// Reads `count` bytes at the offset by a cursor over them, and moves the offset past them.
macro_rules! read_at {
    ($bytes:ident, $off:ident, $value:ident, $count:literal, $cursor:ident => $read:expr) => {{
        let Ok(mut $cursor) = over($bytes, *$off, $count - 1) else {
            return SHORT;
        };
        let Ok(read) = $read else {
            return SHORT;
        };
        *$value = read;
        *$off += $cursor.off();
        DONE
    }};
}

/// Writes by a cursor at the offset, and moves the offset past what was written.
macro_rules! write_at {
    ($bytes:ident, $off:ident, $cursor:ident => $write:expr) => {{
        let mut $cursor = OctetsMut::with_slice($bytes);
        if $cursor.skip(*$off).is_err() || $write.is_err() {
            return SHORT;
        }
        *$off = $cursor.off();
        DONE
    }};
}

pub(crate) use read_at;
pub(crate) use write_at;
