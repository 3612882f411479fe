// Erased from crates/octets_code/src/lib.rt by tools/erase.
//! The Huffman code of HPACK (RFC 7541, Appendix B): the code of each symbol, the automaton that
//! reads codes by single bits or half bytes, a table of the codes with which twelve bits begin, and
//! the laws of the code and its texts.
#![cfg_attr(not(test), no_std)]
#![allow(clippy::all, missing_docs, unstable_name_collisions, unused)]
#![forbid(unsafe_code)]

use rattle_std::{self as std, prelude::*};

mod automaton;
mod counting;
mod entries;
#[doc(hidden)]
pub mod laws;
mod long_codes;
mod looks;
mod symbols;
mod tables;

pub use automaton::{State, Step};
pub use counting::Steps;
pub use entries::Code;
pub use long_codes::{Coded, code_behind};
pub use looks::{Look, look_at};
pub use symbols::{code_len, code_of, lookup};
