// Erased from crates/octets_pieces/src/lib.rt by tools/erase.
//! A Huffman decode (RFC 7541, section 5.2) of an encoding that comes in pieces, as a socket gives
//! them. It allocates nothing, and keeps at most 29 bits between two pieces.
#![cfg_attr(not(test), no_std)]
#![allow(clippy::all, missing_docs, unstable_name_collisions, unused)]
#![forbid(unsafe_code)]

use rattle_std::{self as std, prelude::*};

mod byte_step;
mod decoder;
mod error;
mod joined;
#[doc(hidden)]
pub mod laws;
mod tables;

pub use decoder::{Decoder, Progress};
pub use error::{EosError, IncompleteError, PiecesError};
pub use joined::{decode_pieces, decode_whole};

#[cfg(test)]
mod tests;
