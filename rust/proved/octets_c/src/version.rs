// Erased from crates/octets_c/src/version.rt by tools/erase.
//! The version number of the library.
use rattle_std::{self as std, prelude::*};

/// Returns the version of the linked library as a number: 30703 is 0.3.7+3.
///
/// Returns OCTETS_VERSION if the linked library has the version of this header.
#[inline]
pub fn octets_version() -> u32 {
    30703
}
