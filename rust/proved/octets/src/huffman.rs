// Erased from crates/octets/src/huffman.rt by tools/erase.
//! Encoding and decoding of HPACK's Huffman-encoded strings (RFC 7541, section 5.2).
use rattle_std::{self as std, prelude::*};

mod case;
pub(crate) mod decode;
pub(crate) mod encode;
mod length;
mod pending;
pub(crate) mod words;

pub use case::cased_byte;
pub use encode::put_huffman_encoded;
pub use length::{huffman_encoding_len, huffman_text_len};
pub use pending::Pending;
