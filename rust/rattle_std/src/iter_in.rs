//! The methods of iterators that allocate.
use crate::alloc::{AllocError, Global};
use crate::string::String;
use crate::vec::Vec;

/// A collection that an iterator can be collected into. Rust's counterpart is `FromIterator`, whose method can't return
/// an error if an allocation fails.
pub trait Collection<T>: Sized {
    /// Creates a collection with no items. It allocates nothing.
    fn empty(alloc: Global) -> Self;

    /// Appends an item to the end. If the allocation fails, it returns an error, drops the item, and leaves the
    /// collection unchanged.
    fn append(&mut self, item: T) -> Result<(), AllocError>;
}

impl<T> Collection<T> for Vec<T> {
    fn empty(alloc: Global) -> Self {
        Vec::new(alloc)
    }

    fn append(&mut self, item: T) -> Result<(), AllocError> {
        Ok(self.push(item)?)
    }
}

impl Collection<char> for String {
    fn empty(alloc: Global) -> Self {
        String::new(alloc)
    }

    fn append(&mut self, item: char) -> Result<(), AllocError> {
        self.push(item)
    }
}

/// The methods of iterators that Rattle names `collect` and `try_collect`. They have other names here, since Rust's
/// methods of these names take no allocator.
pub trait IteratorIn: Iterator + Sized {
    /// Collects all items into a collection.
    ///
    /// Rust's `collect` takes no allocator, and ends the program if an allocation fails. This method returns an error
    /// then, and drops the items that it took from the iterator.
    fn rattle_collect<C: Collection<Self::Item>>(self, alloc: Global) -> Result<C, AllocError> {
        let mut all = C::empty(alloc);
        for item in self {
            all.append(item)?;
        }
        Ok(all)
    }

    /// Collects the values of the items into a collection, if each item is `Ok`. Otherwise it returns the first error.
    ///
    /// If an allocation fails, it returns the [`AllocError`], converted to `E`. It takes no more items from the
    /// iterator after an error, and drops the values that it collected before.
    fn rattle_try_collect<T, E, C>(self, alloc: Global) -> Result<C, E>
    where
        Self: Iterator<Item = Result<T, E>>,
        E: From<AllocError>,
        C: Collection<T>,
    {
        let mut all = C::empty(alloc);
        for item in self {
            all.append(item?)?;
        }
        Ok(all)
    }
}

impl<I: Iterator> IteratorIn for I {}
