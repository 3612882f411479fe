//! This crate reads and writes packets without copying them: numbers in network byte order (most significant byte
//! first), variable-length integers (*varints*, RFC 9000, section 16), byte strings, and with the feature
//! `huffman_hpack` the Huffman code of HPACK (RFC 7541, section 5.2).
//!
//! It is a drop-in replacement for `octets` 0.3.7. Its methods call functions that were verified in Rattle, a
//! dialect of Rust with contracts: a proof shows that each function is memory-safe, returns, and does what its contract
//! says. The crate has no `unsafe` code, and needs `alloc` but not `std`.
//!
//! # A packet
//!
//! This program writes and reads a packet. The packet has a kind of one byte, a number of two bytes, and a payload
//! after its length, which is a varint:
//!
//! ```
//! use octets::{Octets, OctetsMut, Result};
//!
//! fn write_packet(packet: &mut [u8], number: u16, payload: &[u8]) -> Result<usize> {
//!     let mut cursor = OctetsMut::with_slice(packet);
//!     cursor.put_u8(7)?;
//!     cursor.put_u16(number)?;
//!     cursor.put_varint(payload.len() as u64)?;
//!     cursor.put_bytes(payload)?;
//!     Ok(cursor.off())
//! }
//!
//! fn read_packet(packet: &[u8]) -> Result<(u8, u16, &[u8])> {
//!     let mut cursor = Octets::with_slice(packet);
//!     let (kind, number) = (cursor.get_u8()?, cursor.get_u16()?);
//!     Ok((kind, number, cursor.get_bytes_with_varint_length()?.buf()))
//! }
//!
//! let mut packet = [0; 16];
//! let len = write_packet(&mut packet, 258, b"abc")?;
//! assert_eq!(packet[..len], [7, 1, 2, 3, b'a', b'b', b'c']);
//! assert_eq!(read_packet(&packet[..len])?, (7, 258, &b"abc"[..]));
//! assert!(read_packet(&packet[..len - 1]).is_err());
//! # Ok::<(), octets::BufferTooShortError>(())
//! ```
//!
//! # A length written afterwards
//!
//! If the length of a payload is known only after the payload is written, skip two bytes for the length, write the payload,
//! and go back to write the length as a varint of two bytes:
//!
//! ```
//! use octets::OctetsMut;
//!
//! let mut packet = [0; 16];
//! let mut cursor = OctetsMut::with_slice(&mut packet);
//! cursor.skip(2)?;
//! cursor.put_bytes(b"ab")?;
//! cursor.put_bytes(b"cde")?;
//! let end = cursor.off();
//! cursor.rewind(end)?;
//! cursor.put_varint_with_len((end - 2) as u64, 2)?;
//! assert_eq!(packet[..end], *b"\x40\x05abcde");
//! # Ok::<(), octets::BufferTooShortError>(())
//! ```
//!
//! # A Huffman-encoded string
//!
//! The feature `huffman_hpack` adds these calls. The limit bounds how much memory a peer can make you
//! allocate:
//!
//! ```
//! # #[cfg(feature = "huffman_hpack")] {
//! use octets::{Octets, OctetsMut, huffman_encoding_len};
//!
//! let mut encoded = [0; 16];
//! let len = huffman_encoding_len::<false>(b"www.example.com")?;
//! OctetsMut::with_slice(&mut encoded).put_huffman_encoded::<false>(b"www.example.com")?;
//! let value = Octets::with_slice(&encoded[..len]).get_huffman_decoded_with_max_length(100)?;
//! assert_eq!(value, b"www.example.com");
//! # }
//! # Ok::<(), octets::BufferTooShortError>(())
//! ```
//!
//! # Errors and panics
//!
//! The documentation of each call says when the call fails, and where the offset is then. Only these calls panic
//! because of their arguments: [`varint_len`], [`OctetsMut::put_varint`] and [`OctetsMut::put_varint_with_len`], and with
//! the feature `more` the method and the function `put_string`, and the methods of `OctetsWriterExt` that write a varint.
//! Their documentation says when.
//!
//! If an allocation fails the program ends, as it does with vectors of Rust: by `handle_alloc_error`, or by the panic
//! `capacity overflow` if no allocation can be so large. The feature `more` has calls that return an error instead.
//!
//! # What is verified
//!
//! Each call of this crate calls a verified function, mostly the one of its name; but `try_to_vec`, for example, calls
//! `to_vec`. A proof shows that this function meets its contract for all buffers and all arguments. The contract says when
//! the function succeeds and when it returns which error, what it returns, where the offset is afterwards, which bytes it
//! writes, and what it leaves unchanged. In the repository, the page `crates/octets/CONTRACTS.md` lists the contracts, and
//! `crates/octets_literal/CONTRACTS.md` and `crates/octets_pieces/CONTRACTS.md` those of the feature `more`.
//!
//! The unverified part is small and covered by tests:
//!
//! - this crate's methods, which call the verified functions, and are generated where the signature is the same; and `to_vec`,
//!   which copies what the verified `as_ref` lends by `to_vec` of Rust's slices;
//! - the comparison in [`varint_len`], [`OctetsMut::put_varint`] and the methods of `OctetsWriterExt` that panics if no varint
//!   holds the number;
//! - what [`OctetsMut::put_varint_with_len`] does with a width that no varint has (`src/unfit.rs`);
//! - the vector of zeros into which a Huffman decode writes, and its end (`src/cursors/octets.rs`);
//! - the crate `rattle_std`, which has vectors whose allocations return an error.
//!
//! # Targets
//!
//! The crate builds for every target of rustc whose `usize` has 32 or 64 bits. It is proved for a `usize` of 64 bits, and
//! tested for 32 bits, where the code is the same.
#![no_std]
#![forbid(unsafe_code)]
#![warn(missing_docs)]

extern crate alloc;

// rustdoc shows the methods of a cursor in the order of these modules.
mod forwards;
mod cursors;
#[cfg(feature = "more")]
pub mod more;
#[cfg(feature = "more")]
mod sink_writes;
mod unfit;
#[cfg(feature = "more")]
mod verified;
mod writer;

pub use cursors::{Octets, OctetsMut};
#[cfg(feature = "huffman_hpack")]
pub use octets_verified::huffman_encoding_len;
pub use octets_verified::{BufferTooShortError, MAX_VAR_INT, Result, varint_parse_len};
pub use writer::OctetsWriter;

/// Returns the number of bytes of the shortest varint that holds `v`: 1, 2, 4 or 8.
///
/// # Panics
///
/// It panics if `v` is greater than [`MAX_VAR_INT`]. A hand-written comparison checks this before it calls the verified
/// code.
///
/// ```
/// assert_eq!(octets::varint_len(15293), 2);
/// ```
///
/// [Verified](crate#what-is-verified): a varint with that number of bytes holds `v`, and no shorter varint does.
pub const fn varint_len(v: u64) -> usize {
    octets_verified::varint_len(unfit::held(v))
}
