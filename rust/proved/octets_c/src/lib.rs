// Erased from crates/octets_c/src/lib.rt by tools/erase.
//! Reads and writes of `octets`, Huffman-encoded strings and string literals, for C and for every
//! language that can call C.
//!
//! An exported function gets all bytes of a buffer and an offset into them, which it moves as a
//! cursor would. A slice is passed as a pointer and then a length. No function keeps anything after
//! the call, and none allocates memory.
//!
//! Each function that reads or writes at an offset calls one function of `octets` or
//! `octets_literal`; only `octets_put_bytes_with_varint_length` calls two. It returns
//! `OCTETS_DONE` exactly if the offset isn't past the end of the buffer, the arguments meet the
//! preconditions of the called function, and this function returns `Ok`. The clause `status` lists
//! all statuses of a call, and other clauses say when it returns which. After an error a call has
//! changed only what its clauses name.
//!
//! `octets_decode_piece` and `octets_decode_end` are `decode` and `finish` of the `Decoder` of
//! `octets_pieces`, which the caller keeps as a byte. The first returns `OCTETS_DONE` exactly if
//! `decode` read all bytes.
#![cfg_attr(not(test), no_std)]
#![allow(clippy::all, missing_docs, unstable_name_collisions, unused)]
#![forbid(unsafe_code)]

use rattle_std::{self as std, prelude::*};

pub mod cursors;
pub mod decoder;
pub mod huffman;
#[doc(hidden)]
pub mod laws;
pub mod literals;
pub mod numbers;
pub mod pieces;
pub mod runs;
pub mod status;
pub mod varints;
pub mod version;
pub mod writes;
