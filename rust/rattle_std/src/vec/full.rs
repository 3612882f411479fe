//! The calls of a vector that only some libraries and programs need.
use super::Vec;
use crate::alloc::{AllocError, AllocFailed, Global};
use core::ops::{DerefMut, RangeBounds};

impl<T> Vec<T> {
    /// Creates a vector of the values of an array. If the allocation fails, it returns an error and drops the values.
    pub fn from_array<const N: usize>(alloc: Global, values: [T; N]) -> Result<Self, AllocError> {
        let mut made = Vec::with_capacity(alloc, N)?;
        made.0.extend(values);
        Ok(made)
    }

    /// Reserves capacity for at least `additional` more values. If the allocation fails, it returns an error and leaves
    /// the vector unchanged. It does what Rust's `try_reserve` does; Rust's `reserve` ends the program if the
    /// allocation fails.
    pub fn reserve(&mut self, additional: usize) -> Result<(), AllocError> {
        self.0.try_reserve(additional).map_err(|_| AllocError)
    }

    /// Removes the last value and returns it, or returns `None` if the vector is empty.
    pub fn pop(&mut self) -> Option<T> {
        self.0.pop()
    }

    /// Inserts a value at `index`, and moves the values from there on to the next position. If the allocation fails, it
    /// returns the value inside the error and leaves the vector unchanged.
    ///
    /// # Panics
    ///
    /// It panics if the allocation succeeds and `index` is greater than the length.
    pub fn insert(&mut self, index: usize, value: T) -> Result<(), AllocFailed<T>> {
        if self.0.try_reserve(1).is_err() {
            return Err(AllocFailed { value });
        }
        self.0.insert(index, value);
        Ok(())
    }

    /// Removes the value at `index` and returns it, and moves the values after it to the position before.
    ///
    /// # Panics
    ///
    /// It panics if `index` isn't less than the length.
    pub fn remove(&mut self, index: usize) -> T {
        self.0.remove(index)
    }

    /// Removes the value at `index` and returns it, and moves the last value to its position.
    ///
    /// # Panics
    ///
    /// It panics if `index` isn't less than the length.
    pub fn swap_remove(&mut self, index: usize) -> T {
        self.0.swap_remove(index)
    }

    /// Removes all values. The capacity is unchanged.
    pub fn clear(&mut self) {
        self.0.clear()
    }

    /// Returns a slice of all values.
    #[inline]
    pub fn as_slice(&self) -> &[T] {
        &self.0
    }

    /// Returns a mutable slice of all values.
    #[inline]
    pub fn as_mut_slice(&mut self) -> &mut [T] {
        &mut self.0
    }

    /// Returns a mutable slice of the values in a range. In Rust's std `&mut values[range]` does the same.
    ///
    /// # Panics
    ///
    /// It panics if the range ends before it starts, or ends after the last value.
    pub fn slice_mut<R: RangeBounds<usize>>(&mut self, range: R) -> &mut [T] {
        let (start, end) = (range.start_bound().cloned(), range.end_bound().cloned());
        &mut self.0[(start, end)]
    }
}

impl<T: Clone> Vec<T> {
    /// Creates a vector of `count` clones of a value. It returns an error if the allocation fails. Rust's counterpart
    /// is `vec![value; count]`.
    pub fn from_elem(alloc: Global, value: T, count: usize) -> Result<Self, AllocError> {
        let mut made = Vec::with_capacity(alloc, count)?;
        made.0.resize(count, value);
        Ok(made)
    }

    /// Changes the length to `len`: if that is less than the length, it removes the values from `len` on; otherwise it
    /// appends clones of `value`. If the allocation fails, it returns an error and leaves the vector unchanged.
    pub fn resize(&mut self, len: usize, value: T) -> Result<(), AllocError> {
        self.reserve(len.saturating_sub(self.0.len()))?;
        self.0.resize(len, value);
        Ok(())
    }
}

impl<T> DerefMut for Vec<T> {
    #[inline]
    fn deref_mut(&mut self) -> &mut [T] {
        &mut self.0
    }
}

impl<T> AsRef<[T]> for Vec<T> {
    fn as_ref(&self) -> &[T] {
        &self.0
    }
}

impl<T> AsMut<[T]> for Vec<T> {
    fn as_mut(&mut self) -> &mut [T] {
        &mut self.0
    }
}

impl<'a, T> IntoIterator for &'a Vec<T> {
    type Item = &'a T;
    type IntoIter = core::slice::Iter<'a, T>;

    fn into_iter(self) -> Self::IntoIter {
        self.0.iter()
    }
}

impl<'a, T> IntoIterator for &'a mut Vec<T> {
    type Item = &'a mut T;
    type IntoIter = core::slice::IterMut<'a, T>;

    fn into_iter(self) -> Self::IntoIter {
        self.0.iter_mut()
    }
}
