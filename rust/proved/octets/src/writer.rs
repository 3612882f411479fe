// Erased from crates/octets/src/writer.rt by tools/erase.
//! Sinks, which take bytes one piece at a time.
use rattle_std::{self as std, prelude::*};

/// A sink takes bytes. A cursor is a sink, and so may be a ring buffer, or a buffer in front of a
/// stream.
///
/// A contract describes a sink by three values. `written` is the list of the bytes that were
/// written so far. `room` is the number of bytes that still fit, or `None` if that number is
/// unknown. `whole` says whether a call that fails appends nothing. If `room` is known, a call
/// succeeds if and only if its bytes fit. If it is unknown, a contract says nothing about when a
/// call fails.
pub trait OctetsWriter {
    /// The error of a call that fails. Contracts say nothing about its value.
    type Error;

    /// Appends all bytes of `v`, or fails after it has appended a prefix of them at most.
    ///
    /// ```
    /// # use octets_verified::*;
    /// let mut bytes = [0, 0, 0];
    /// let mut sink = OctetsMut::with_slice(&mut bytes);
    /// OctetsWriter::put_bytes(&mut sink, b"ab")?;
    /// assert!(OctetsWriter::put_bytes(&mut sink, b"cd").is_err());
    /// assert_eq!(sink.off(), 2);
    /// # Ok::<(), Box<dyn core::error::Error>>(())
    /// ```
    fn put_bytes(&mut self, v: &[u8]) -> std::result::Result<(), Self::Error>;
}
