// Erased from crates/octets_code/src/tables.rt by tools/erase.
//! The tables that `tools/tables.py` writes from the codes of RFC 7541, Appendix B. Files of
//! `proofs/` check each table against the codes.
use rattle_std::{self as std, prelude::*};

pub(crate) mod bit_moves;
pub(crate) mod codes;
pub(crate) mod fronts;
pub(crate) mod lengths;
pub(crate) mod looks;
pub(crate) mod nibble_moves;
pub(crate) mod symbols;
