//! The method of slices that `octets` doesn't need.
use crate::alloc::{AllocError, Global};
use crate::vec::Vec;

/// The method of slices that Rattle names `to_vec`. Rust's method ends the program if an allocation fails, and is for types
/// that are `Clone`; this one is for types that are `Copy`.
pub trait SliceIn<T> {
    /// Copies the slice into a new vector. It returns an error if the allocation fails.
    fn rattle_to_vec(&self, alloc: Global) -> Result<Vec<T>, AllocError>;
}

impl<T: Copy> SliceIn<T> for [T] {
    #[inline]
    fn rattle_to_vec(&self, alloc: Global) -> Result<Vec<T>, AllocError> {
        Vec::from_slice(alloc, self)
    }
}
