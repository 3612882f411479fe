//! The methods of slices that Rust's std has in another form, or not in each version.
#[cfg(feature = "full")]
pub(crate) mod full;

/// The method `as_chunks` of slices for compilers before Rust 1.88. Since that version slices have a method of this
/// name, and a call `slice.as_chunks()` calls that one.
pub trait AsChunks<T> {
    /// Splits the slice into arrays of `N` items, and the items at the end that don't fill an array.
    ///
    /// Rust's method returns a slice of arrays, and this one returns an iterator over them.
    ///
    /// # Panics
    ///
    /// It panics if `N` is 0.
    fn as_chunks<const N: usize>(&self) -> (impl Iterator<Item = &[T; N]>, &[T])
    where
        T: 'static;
}

impl<T> AsChunks<T> for [T] {
    #[inline]
    fn as_chunks<const N: usize>(&self) -> (impl Iterator<Item = &[T; N]>, &[T])
    where
        T: 'static,
    {
        let chunks = self.chunks_exact(N);
        let rest = chunks.remainder();
        (chunks.filter_map(|chunk| chunk.try_into().ok()), rest)
    }
}
