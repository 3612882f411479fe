// Erased from crates/octets_literal/src/list.rt by tools/erase.
//! The call that reads literals one after another.
use rattle_std::{self as std, prelude::*};

use crate::error::LiteralError;
use crate::get::get_string;
use crate::memory::append;
use octets::Octets;
use std::alloc::Global;

/// Reads string literals up to the end of the buffer. The value of each may have at most `max_len`
/// bytes.
///
/// If the call fails at a literal, it leaves the offset before that literal. If the list of values
/// can't grow, it leaves the offset after the literal whose value didn't fit.
///
/// ```
/// # use octets_literal::*;
/// # use octets::*;
/// # let alloc = rattle_std::alloc::Global;
/// let mut cursor = Octets::with_slice(&[1, 97, 1, 98]);
/// assert_eq!(get_strings(alloc, &mut cursor, 9)?.len(), 2);
/// # Ok::<(), Box<dyn core::error::Error>>(())
/// ```
#[inline]
pub fn get_strings(
    alloc: Global,
    cursor: &mut Octets<'_>,
    max_len: usize,
) -> Result<Vec<Vec<u8>>, LiteralError> {
    let mut values = Vec::new(alloc);
    'literals: while cursor.cap() > 0 {
        let value = get_string(alloc, cursor, max_len)?;
        if append(&mut values, value).is_err() {
            return Err(LiteralError::OutOfMemory);
        }
    }
    Ok(values)
}
