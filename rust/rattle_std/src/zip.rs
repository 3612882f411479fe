//! `zip`, which calls the methods `next` of its two iterators in the same order as Rattle's.
//!
//! If Rust's `zip` knows how many pairs there are, it may leave out the last call of `next` on the first iterator. The
//! difference is visible if that call has an effect: a closure is called one time less, or a borrowed iterator has one
//! more item left.
use core::iter::FusedIterator;

/// An iterator over pairs of the items of two iterators. It ends as soon as one of the two ends.
///
/// Each call of `next` calls `next` on the first iterator. If that returns an item, it then calls `next` on the second.
/// Rust's `Zip` leaves out some of these calls.
#[derive(Clone, Debug)]
pub struct Zip<A, B> {
    first: A,
    second: B,
}

impl<A: Iterator, B: Iterator> Iterator for Zip<A, B> {
    type Item = (A::Item, B::Item);

    #[inline]
    fn next(&mut self) -> Option<Self::Item> {
        let first = self.first.next()?;
        let second = self.second.next()?;
        Some((first, second))
    }

    #[inline]
    fn size_hint(&self) -> (usize, Option<usize>) {
        let (first, second) = (self.first.size_hint(), self.second.size_hint());
        let upper = match (first.1, second.1) {
            (Some(first), Some(second)) => Some(first.min(second)),
            (first, second) => first.or(second),
        };
        (first.0.min(second.0), upper)
    }
}

impl<A: ExactSizeIterator, B: ExactSizeIterator> ExactSizeIterator for Zip<A, B> {}

impl<A, B> DoubleEndedIterator for Zip<A, B>
where
    A: DoubleEndedIterator + ExactSizeIterator,
    B: DoubleEndedIterator + ExactSizeIterator,
{
    #[inline]
    fn next_back(&mut self) -> Option<Self::Item> {
        let (first, second) = (self.first.len(), self.second.len());
        if first == 0 || second == 0 {
            return None;
        }
        skip_back(&mut self.first, first.saturating_sub(second))?;
        skip_back(&mut self.second, second.saturating_sub(first))?;
        let last = self.first.next_back()?;
        Some((last, self.second.next_back()?))
    }
}

impl<A: FusedIterator, B: FusedIterator> FusedIterator for Zip<A, B> {}

/// Removes `count` items from the end, and returns `None` if there are fewer.
fn skip_back<I: DoubleEndedIterator>(items: &mut I, count: usize) -> Option<()> {
    match count.checked_sub(1) {
        Some(last) => items.nth_back(last).map(|_| ()),
        None => Some(()),
    }
}

/// The method of iterators that Rattle names `zip`. It has another name here, since Rust's `zip` leaves out some calls
/// of `next`.
pub trait ZipIteratorInTurn: Iterator + Sized {
    /// Returns an iterator over pairs of the items of this iterator and of another one.
    #[inline]
    fn rattle_zip<B: IntoIterator>(self, other: B) -> Zip<Self, B::IntoIter> {
        Zip { first: self, second: other.into_iter() }
    }
}

impl<I: Iterator> ZipIteratorInTurn for I {}

/// The method of `Option` that Rattle names `zip`. `tools/erase` renames every `zip`, so `Option` needs a method of
/// that name too; it does the same as Rust's.
pub trait ZipOptionInTurn<T> {
    /// Returns a pair of both values if both options are `Some`, and otherwise `None`.
    fn rattle_zip<U>(self, other: Option<U>) -> Option<(T, U)>;
}

impl<T> ZipOptionInTurn<T> for Option<T> {
    #[inline]
    fn rattle_zip<U>(self, other: Option<U>) -> Option<(T, U)> {
        self.zip(other)
    }
}
