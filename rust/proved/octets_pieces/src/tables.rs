// Erased from crates/octets_pieces/src/tables.rt by tools/erase.
//! The table that `tools/tables.py` writes from the codes of RFC 7541, Appendix B.
//! `proofs/HalvesFit.antt` checks it against the paths of `octets_code`.
use rattle_std::{self as std, prelude::*};

pub(crate) mod halves;
