//! A vector whose calls return an error if an allocation fails.
use crate::alloc::{AllocError, AllocFailed, Global};
use core::fmt;
use core::ops::Deref;
use rust_alloc::vec;

#[cfg(feature = "full")]
mod full;

/// A growable array, which contains a `Vec` of Rust's std. `From` converts each to the other without copying.
///
/// It dereferences to a slice, so it has the methods of slices. It differs from Rust's `Vec` in two points: a call that
/// allocates returns an error if the allocation fails, and a call that creates a vector takes the allocator. It isn't
/// `Clone`, since a clone allocates.
///
/// ```
/// use rattle_std::alloc::{AllocError, Global};
/// use rattle_std::vec::Vec;
///
/// let mut values = Vec::from_slice(Global, &[1, 2])?;
/// values.push(3)?;
/// assert_eq!(*values, [1, 2, 3]);
/// # Ok::<(), AllocError>(())
/// ```
#[derive(PartialEq, Eq, PartialOrd, Ord, Hash)]
pub struct Vec<T>(pub(crate) vec::Vec<T>);

/// An iterator over the values of a vector, which it owns: that of Rust's std.
pub type IntoIter<T> = vec::IntoIter<T>;

impl<T> Vec<T> {
    /// Creates an empty vector. It allocates nothing.
    #[inline]
    pub const fn new(_: Global) -> Self {
        Vec(vec::Vec::new())
    }

    /// Creates an empty vector with a capacity of at least `capacity` values. It returns an error if the allocation
    /// fails.
    #[inline]
    pub fn with_capacity(_: Global, capacity: usize) -> Result<Self, AllocError> {
        let mut values = vec::Vec::new();
        match values.try_reserve_exact(capacity) {
            Ok(()) => Ok(Vec(values)),
            Err(_) => Err(AllocError),
        }
    }

    /// Returns the number of values that the vector can have without another allocation.
    ///
    /// A call for a type of size 0 doesn't compile, since Rust's std has another capacity for such a vector than
    /// Rattle's std has.
    ///
    /// ```compile_fail,E0080
    /// use rattle_std::{alloc::Global, vec::Vec};
    ///
    /// Vec::<()>::new(Global).capacity();
    /// ```
    ///
    /// An empty array is such a type too, whatever its alignment is.
    ///
    /// ```compile_fail,E0080
    /// use rattle_std::{alloc::Global, vec::Vec};
    ///
    /// Vec::<[u128; 0]>::new(Global).capacity();
    /// ```
    #[inline]
    pub fn capacity(&self) -> usize {
        const { assert!(size_of::<T>() > 0, "the capacity of a vector of values with no size is another one in Rust") }
        self.0.capacity()
    }

    /// Appends a value to the end. If the allocation fails, it returns the value inside the error and leaves the vector
    /// unchanged. Rust's `push` returns nothing, and ends the program if the allocation fails.
    #[inline]
    pub fn push(&mut self, value: T) -> Result<(), AllocFailed<T>> {
        if self.0.try_reserve(1).is_err() {
            return Err(AllocFailed { value });
        }
        self.0.push(value);
        Ok(())
    }

    /// Appends a value to the end of a vector whose length is less than its capacity. It allocates nothing.
    ///
    /// In erased code a proof has shown that the length is less than the capacity. The comparison of the two lets the
    /// compiler leave out the code that grows the vector.
    ///
    /// # Panics
    ///
    /// It panics if the length isn't less than the capacity.
    #[inline]
    pub fn push_reserved(&mut self, value: T) {
        if self.0.len() >= self.0.capacity() {
            unreachable!()
        }
        self.0.push(value)
    }

    /// Shortens the vector to `len` values, and leaves a vector with fewer values unchanged. The capacity is unchanged.
    #[inline]
    pub fn truncate(&mut self, len: usize) {
        self.0.truncate(len)
    }
}

impl<T: Copy> Vec<T> {
    /// Creates a vector as a copy of a slice. It returns an error if the allocation fails.
    pub fn from_slice(alloc: Global, values: &[T]) -> Result<Self, AllocError> {
        let mut made = Vec::with_capacity(alloc, values.len())?;
        made.0.extend_from_slice(values);
        Ok(made)
    }

    /// Appends the values of a slice to the end. If the allocation fails, it returns an error and leaves the vector
    /// unchanged.
    #[inline]
    pub fn extend_from_slice(&mut self, values: &[T]) -> Result<(), AllocError> {
        self.0.try_reserve(values.len()).map_err(|_| AllocError)?;
        self.0.extend_from_slice(values);
        Ok(())
    }
}

impl<T: fmt::Debug> fmt::Debug for Vec<T> {
    fn fmt(&self, f: &mut fmt::Formatter<'_>) -> fmt::Result {
        self.0.fmt(f)
    }
}

impl<T> Deref for Vec<T> {
    type Target = [T];

    #[inline]
    fn deref(&self) -> &[T] {
        &self.0
    }
}

impl<T> From<vec::Vec<T>> for Vec<T> {
    #[inline]
    fn from(vec: vec::Vec<T>) -> Self {
        Vec(vec)
    }
}

impl<T> From<Vec<T>> for vec::Vec<T> {
    #[inline]
    fn from(vec: Vec<T>) -> Self {
        vec.0
    }
}

impl<T> IntoIterator for Vec<T> {
    type Item = T;
    type IntoIter = IntoIter<T>;

    fn into_iter(self) -> IntoIter<T> {
        self.0.into_iter()
    }
}
