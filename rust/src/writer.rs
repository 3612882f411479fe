//! The trait of sinks, which are destinations for bytes.
use core::result::Result;
#[cfg(feature = "huffman_hpack")]
use octets_verified as proved;

/// A destination for bytes (a *sink*), such as a cursor, a vector, or a buffer that is written to a stream.
///
/// ```
/// # use octets::OctetsWriter;
/// struct Text(Vec<u8>);
///
/// impl OctetsWriter for Text {
///     type Error = ();
///
///     fn put_bytes(&mut self, v: &[u8]) -> Result<(), ()> {
///         self.0.extend_from_slice(v);
///         Ok(())
///     }
/// }
///
/// let mut text = Text(Vec::new());
/// text.put_bytes(b"ab")?;
/// assert_eq!(text.0, b"ab");
/// # #[cfg(feature = "huffman_hpack")]
/// text.put_huffman_encoded::<false>(b"302")?;
/// # #[cfg(feature = "huffman_hpack")]
/// assert_eq!(text.0, b"ab\x64\x02");
/// # Ok::<(), ()>(())
/// ```
pub trait OctetsWriter {
    /// The error that a write to the sink returns.
    type Error;

    /// Writes all of `v`, or fails. If it fails, it may have written a prefix of `v`; the implementation should document
    /// that.
    fn put_bytes(&mut self, v: &[u8]) -> Result<(), Self::Error>;

    /// Writes the Huffman encoding of `v` (RFC 7541, section 5.2), or of `v` in lower case.
    ///
    /// It calls `put_bytes` with pieces of eight bytes, then with one piece of four bytes if at least four are left, then
    /// with single bytes. Encoding stops at the first error of the sink and returns it. The earlier pieces remain written.
    ///
    /// If `put_bytes` appends all of `v` whenever it returns `Ok`, and a prefix of `v` whenever it returns `Err`, it is
    /// [verified](crate#what-is-verified) that the sink has got the encoding, or a prefix of it. Nothing checks that a sink
    /// does so. The lengths of the pieces are tested.
    #[cfg(feature = "huffman_hpack")]
    fn put_huffman_encoded<const LOWER_CASE: bool>(&mut self, v: &[u8]) -> Result<(), Self::Error>
    where
        Self: Sized,
    {
        proved::put_huffman_encoded::<LOWER_CASE, Sink<'_, Self>>(&mut Sink(self), v)
    }
}

/// Makes a sink of this crate one that the verified encoder accepts.
#[cfg(feature = "huffman_hpack")]
pub(crate) struct Sink<'a, W: ?Sized>(pub(crate) &'a mut W);

#[cfg(feature = "huffman_hpack")]
impl<W: OctetsWriter + ?Sized> proved::OctetsWriter for Sink<'_, W> {
    type Error = W::Error;

    #[inline]
    fn put_bytes(&mut self, v: &[u8]) -> Result<(), W::Error> {
        self.0.put_bytes(v)
    }
}
