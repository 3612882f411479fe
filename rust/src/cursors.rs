//! The two cursors: `Octets` reads, and `OctetsMut` reads and writes.
#[cfg(feature = "huffman_hpack")]
mod octets;
mod octets_mut;

use alloc::vec::Vec;
use core::fmt;
use octets_verified as proved;
#[cfg(feature = "more")]
use rattle_std::alloc::{AllocError, Global};

/// A cursor for reading: a borrowed slice of bytes, which is its buffer, and an offset into the buffer, which is 0 at first.
///
/// It copies no bytes, and its offset is never past the end of the buffer. A call that fails leaves the offset unchanged,
/// with two exceptions. A call that reads a length and the bytes after it leaves the offset after the length, if the length
/// itself was complete. The Huffman decoders, and `get_strings` of the feature `more`, move the offset; their documentation
/// says to where.
///
/// The methods call functions that were [verified](crate#what-is-verified).
#[derive(PartialEq, Eq)]
pub struct Octets<'a>(pub(crate) proved::Octets<'a>);

/// A cursor for reading and writing: a mutably borrowed slice of bytes, which is its buffer, and an offset into the buffer,
/// which is 0 at first.
///
/// Its offset is never past the end of the buffer. A call that fails writes nothing and leaves the offset unchanged, with
/// two exceptions. A call that reads a length and the bytes after it leaves the offset after the length, if the length
/// itself was complete. `put_huffman_encoded` writes the first pieces of the encoding that fit, and leaves the offset after
/// them.
///
/// The methods call functions that were [verified](crate#what-is-verified).
#[derive(PartialEq, Eq)]
pub struct OctetsMut<'a>(pub(crate) proved::OctetsMut<'a>);

/// What both cursors have, with another signature than the verified one. `$over` is the line of an example that makes a cursor
/// over the bytes 1, 2, 3.
macro_rules! both {
    ($cursor:ident, $over:literal) => {
        impl $cursor<'_> {
            /// Copies the bytes that remain, from the offset on, into a vector. The offset is unchanged.
            ///
            /// If the allocation fails the program ends, as it does with vectors of Rust.
            ///
            /// ```
            /// # use octets::*;
            #[doc = $over]
            /// cursor.skip(1)?;
            /// assert_eq!(cursor.to_vec(), [2, 3]);
            /// # Ok::<(), BufferTooShortError>(())
            /// ```
            pub fn to_vec(&self) -> Vec<u8> {
                self.as_ref().to_vec()
            }

            /// Copies the bytes that remain, as [`to_vec`](Self::to_vec) does, but returns an error if the allocation fails.
            ///
            /// ```
            /// # use octets::*;
            #[doc = $over]
            /// cursor.skip(1)?;
            /// assert_eq!(cursor.try_to_vec(), Ok(vec![2, 3]));
            /// # Ok::<(), BufferTooShortError>(())
            /// ```
            #[cfg(feature = "more")]
            pub fn try_to_vec(&self) -> Result<Vec<u8>, AllocError> {
                Ok(self.0.to_vec(Global)?.into())
            }
        }

        /// Returns the bytes that remain, from the offset on.
        impl AsRef<[u8]> for $cursor<'_> {
            #[inline(always)]
            fn as_ref(&self) -> &[u8] {
                self.0.as_ref()
            }
        }

        impl fmt::Debug for $cursor<'_> {
            fn fmt(&self, f: &mut fmt::Formatter<'_>) -> fmt::Result {
                self.0.fmt(f)
            }
        }
    };
}

both!(Octets, "let mut cursor = Octets::with_slice(&[1, 2, 3]);");
both!(OctetsMut, "let mut bytes = [1, 2, 3];\nlet mut cursor = OctetsMut::with_slice(&mut bytes);");
