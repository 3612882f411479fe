// Erased from crates/octets_literal/src/data.rt by tools/erase.
//! Where the data of a literal are.
use rattle_std::{self as std, prelude::*};

use crate::error::LiteralError;
use crate::length::read_length;

/// The data of a literal.
#[derive(Clone, Copy)]
pub(crate) struct Data<'a> {
    /// The flag H: whether the data are Huffman-encoded.
    pub(crate) huffman: bool,
    pub(crate) content: &'a [u8],
    /// The length of the whole literal in bytes, including its length field.
    pub(crate) whole: usize,
}

/// Returns the data of the literal with which the bytes begin.
#[inline]
pub(crate) fn find_data(bytes: &[u8]) -> Result<Data<'_>, LiteralError> {
    let length = read_length(bytes)?;
    let len = length.len as usize;
    if bytes.len() - length.width < len {
        return Err(LiteralError::Short);
    }
    let whole = length.width + len;
    Ok(Data {
        huffman: length.huffman,
        content: &bytes[length.width..whole],
        whole,
    })
}
