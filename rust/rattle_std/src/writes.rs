//! What Rust's `std::io` asks of the types of this crate: a vector is a writer, and a failed allocation an error of it.
use crate::alloc::{AllocError, AllocFailed};
use crate::vec::Vec;
use core::fmt;
use rust_std::io;

/// Passes the pieces of a formatted text on to a writer, and keeps the error of a write that failed.
struct Pieces<'a, W>(&'a mut W, io::Result<()>);

impl<W: io::Write> fmt::Write for Pieces<'_, W> {
    fn write_str(&mut self, text: &str) -> fmt::Result {
        self.0.write_all(text.as_bytes()).map_err(|why| {
            self.1 = Err(why);
            fmt::Error
        })
    }
}

/// Formats `text`, and writes it to `out`. If a `Display` returns an error, it fails with an error of the kind `Other`,
/// where the `write_fmt` of Rust's std panics.
#[doc(hidden)]
pub fn format_to(out: &mut impl io::Write, text: fmt::Arguments<'_>) -> io::Result<()> {
    let mut pieces = Pieces(out, Ok(()));
    let formatted = fmt::Write::write_fmt(&mut pieces, text);
    pieces.1?;
    formatted.map_err(|_| io::Error::from(io::ErrorKind::Other))
}

/// A write appends all bytes to the end of the vector. If the allocation fails, it fails with `OutOfMemory`, and the
/// vector is unchanged. In Rust's std a write to a vector never returns an error.
impl io::Write for Vec<u8> {
    fn write(&mut self, bytes: &[u8]) -> io::Result<usize> {
        self.extend_from_slice(bytes)?;
        Ok(bytes.len())
    }

    fn flush(&mut self) -> io::Result<()> {
        Ok(())
    }

    fn write_fmt(&mut self, text: fmt::Arguments<'_>) -> io::Result<()> {
        format_to(self, text)
    }
}

/// Converts the error, so that `?` works in a function that returns an `io::Result`. The kind is `OutOfMemory`.
impl From<AllocError> for io::Error {
    fn from(_: AllocError) -> Self {
        io::Error::from(io::ErrorKind::OutOfMemory)
    }
}

/// Converts the error, and drops the value in it. The kind is `OutOfMemory`.
impl<T> From<AllocFailed<T>> for io::Error {
    fn from(_: AllocFailed<T>) -> Self {
        io::Error::from(io::ErrorKind::OutOfMemory)
    }
}
