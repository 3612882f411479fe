// Erased from crates/octets_literal/src/lib.rt by tools/erase.
//! String literals of HPACK (RFC 7541, sections 5.1 and 5.2), over the cursors and sinks of
//! `octets`. A literal is a length with a flag, and then the value itself or its Huffman encoding.
#![cfg_attr(not(test), no_std)]
#![allow(clippy::all, missing_docs, unstable_name_collisions, unused)]
#![forbid(unsafe_code)]

use rattle_std::{self as std, prelude::*};

mod data;
mod error;
mod get;
mod get_into;
#[doc(hidden)]
pub mod laws;
mod length;
mod list;
mod memory;
mod put;
mod write;

pub use error::{LiteralError, ValueError};
pub use get::get_string;
pub use get_into::{get_string_into, read_string_into};
pub use length::MAX_LITERAL_LEN;
pub use list::get_strings;
pub use put::put_string;
pub use write::write_string;
