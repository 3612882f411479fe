//! The allocator, and the errors that a call returns if an allocation fails.
use core::error::Error;
use core::fmt;

/// Rust's global allocator.
///
/// Rust's collections use it without naming it. In this crate, as in Rattle's std, each call that allocates takes the
/// allocator as an argument, or uses a value that was made with it. This crate has no other allocator.
#[derive(Clone, Copy, Debug)]
pub struct Global;

/// The error of a call whose allocation failed, because there is no memory left or because no allocation can be so
/// large.
///
/// In Rust's std most calls that allocate return no such error: they end the program if there is no memory left, and
/// panic with `capacity overflow` if no allocation can be so large.
#[derive(Clone, Copy, PartialEq, Eq)]
pub struct AllocError;

impl fmt::Debug for AllocError {
    fn fmt(&self, f: &mut fmt::Formatter<'_>) -> fmt::Result {
        f.write_str("AllocError")
    }
}

impl fmt::Display for AllocError {
    fn fmt(&self, f: &mut fmt::Formatter<'_>) -> fmt::Result {
        f.write_str("memory allocation failed")
    }
}

impl Error for AllocError {}

/// The error of a call that takes a value to store it, if the allocation for the value failed.
///
/// It contains the value, which was not stored. The operator `?` converts it to an [`AllocError`], and then the value
/// is dropped.
pub struct AllocFailed<T> {
    /// The value that was not stored.
    pub value: T,
}

impl<T> fmt::Debug for AllocFailed<T> {
    fn fmt(&self, f: &mut fmt::Formatter<'_>) -> fmt::Result {
        f.write_str("AllocFailed { .. }")
    }
}

impl<T> fmt::Display for AllocFailed<T> {
    fn fmt(&self, f: &mut fmt::Formatter<'_>) -> fmt::Result {
        fmt::Display::fmt(&AllocError, f)
    }
}

impl<T> Error for AllocFailed<T> {}

impl<T> From<AllocFailed<T>> for AllocError {
    fn from(_: AllocFailed<T>) -> Self {
        AllocError
    }
}
