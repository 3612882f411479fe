//! The methods of slices, strings and printable values that allocate, but for `to_vec`. They have other names than in
//! Rattle, since Rust's methods of those names take no allocator.
use crate::alloc::{AllocError, Global};
use crate::string::String;
use crate::vec::Vec;
use core::fmt::Display;

/// The methods of slices that Rattle names `to_owned` and `repeat`. Rust's methods end the program if an allocation fails,
/// and are for types that are `Clone`; these are for types that are `Copy`.
pub trait RepeatIn<T> {
    /// Copies the slice into a new vector, as [`rattle_to_vec`](crate::traits::SliceIn::rattle_to_vec) does.
    fn rattle_to_owned(&self, alloc: Global) -> Result<Vec<T>, AllocError>;

    /// Creates a vector of `count` copies of the slice, one after the other.
    ///
    /// It returns an error if the allocation fails, or if a `usize` can't hold the length of the result. In the second
    /// case Rust's `repeat` panics.
    fn rattle_repeat(&self, alloc: Global, count: usize) -> Result<Vec<T>, AllocError>;
}

impl<T: Copy> RepeatIn<T> for [T] {
    fn rattle_to_owned(&self, alloc: Global) -> Result<Vec<T>, AllocError> {
        Vec::from_slice(alloc, self)
    }

    fn rattle_repeat(&self, alloc: Global, count: usize) -> Result<Vec<T>, AllocError> {
        let len = self.len().checked_mul(count).ok_or(AllocError)?;
        let mut made = Vec::with_capacity(alloc, len)?;
        while made.len() < len {
            made.extend_from_slice(self)?;
        }
        Ok(made)
    }
}

/// The methods of string slices that Rattle names `to_owned` and `repeat`. Rust's methods end the program if an
/// allocation fails.
pub trait StrIn {
    /// Copies the string slice into a new string. It returns an error if the allocation fails.
    fn rattle_to_owned(&self, alloc: Global) -> Result<String, AllocError>;

    /// Creates a string of `count` copies of the string slice, one after the other.
    ///
    /// It returns an error if the allocation fails, or if a `usize` can't hold the length of the result. In the second
    /// case Rust's `repeat` panics.
    fn rattle_repeat(&self, alloc: Global, count: usize) -> Result<String, AllocError>;
}

impl StrIn for str {
    fn rattle_to_owned(&self, alloc: Global) -> Result<String, AllocError> {
        String::from_str(alloc, self)
    }

    fn rattle_repeat(&self, alloc: Global, count: usize) -> Result<String, AllocError> {
        let len = self.len().checked_mul(count).ok_or(AllocError)?;
        let mut made = String::with_capacity(alloc, len)?;
        while made.len() < len {
            made.push_str(self)?;
        }
        Ok(made)
    }
}

/// The method that Rattle names `to_string`. Rust's method ends the program if an allocation fails.
pub trait ToStringIn {
    /// Converts the value to a string, as `{}` formats it.
    ///
    /// It returns an error if an allocation fails, or if the implementation of `Display` returns an error. In the
    /// second case Rust's `to_string` panics.
    fn rattle_to_string(&self, alloc: Global) -> Result<String, AllocError>;
}

impl<T: Display + ?Sized> ToStringIn for T {
    fn rattle_to_string(&self, alloc: Global) -> Result<String, AllocError> {
        String::format(alloc, format_args!("{self}"))
    }
}
