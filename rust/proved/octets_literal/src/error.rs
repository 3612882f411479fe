// Erased from crates/octets_literal/src/error.rt by tools/erase.
//! The errors of reads of literals.
use rattle_std::{self as std, prelude::*};

use octets::{BufferTooShortError, IntoError};
use std::alloc::AllocError;
use std::error::Error;
use std::fmt;

/// Why a read of a literal fails.
///
/// If several errors apply, the first of the following is returned. `Short` or `Length` comes first
/// if the length is at fault, then `Short` if data are missing. After that, `Value` comes before
/// `OutOfMemory` if the flag is clear. If it is set, `OutOfMemory` comes before `Value`, because
/// memory is allocated before the data are decoded.
#[derive(Clone, Copy, Debug, PartialEq, Eq)]
pub enum LiteralError {
    /// The bytes end before the length does, or before the data do.
    Short = 1,
    /// The length has more than six bytes, or exceeds 4294967295, whatever follows it.
    Length = 2,
    /// The data have no value within the limit.
    Value = 3,
    /// An allocation for the value failed.
    OutOfMemory = 4,
}

impl fmt::Display for LiteralError {
    #[inline]
    fn fmt(&self, f: &mut fmt::Formatter<'_>) -> fmt::Result {
        match self {
            LiteralError::Short => write!(f, "the bytes end before the string literal does"),
            LiteralError::Length => write!(
                f,
                "the string literal's length has more than six bytes or exceeds 4294967295"
            ),
            LiteralError::Value => write!(f, "the string literal has no value within the limit"),
            LiteralError::OutOfMemory => write!(f, "out of memory"),
        }
    }
}

impl Error for LiteralError {}

/// Why the data of a literal have no value that fits into a slice.
#[derive(Clone, Copy, Debug, PartialEq, Eq)]
pub enum ValueError {
    /// The flag says that the data are Huffman-encoded, and this is the first fault of the
    /// encoding.
    Text(IntoError),
    /// The data are the value itself and longer than the slice, which is left unchanged.
    Long,
}

impl From<BufferTooShortError> for LiteralError {
    #[inline]
    fn from(_error: BufferTooShortError) -> LiteralError {
        LiteralError::Short
    }
}

impl From<AllocError> for LiteralError {
    #[inline]
    fn from(_error: AllocError) -> LiteralError {
        LiteralError::OutOfMemory
    }
}
