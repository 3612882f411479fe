//! Tests of what the crate has without features. The tests of the rest are in `rattle_host`, which has the same names.
use rattle_std::alloc::{AllocError, AllocFailed, Global};
use rattle_std::prelude::*;
use rattle_std::traits::AsChunks;

#[test]
fn vectors_are_filled_copied_and_taken_apart() {
    let mut values = Vec::with_capacity(Global, 2).unwrap();
    assert!(values.is_empty() && values.capacity() >= 2);
    values.push_reserved(1u8);
    values.push(2).unwrap();
    values.push(3).unwrap();
    assert_eq!(*values, [1, 2, 3]);
    values.truncate(2);
    assert_eq!(Vec::from_slice(Global, &[1, 2]).unwrap(), values);
    values.extend_from_slice(&[5, 6]).unwrap();
    assert_eq!(*values, [1, 2, 5, 6]);
    values.truncate(2);
    assert_eq!(std::vec::Vec::from(values), [1, 2]);
    assert_eq!(Vec::from(vec![7, 8]).into_iter().map(|value| value + 1).collect::<std::vec::Vec<u8>>(), [8, 9]);
    assert!(Vec::<u8>::new(Global).is_empty());
}

#[test]
fn what_no_allocation_can_hold_is_an_error() {
    assert_eq!(Vec::<u16>::with_capacity(Global, usize::MAX / 2), Err(AllocError));
    let failed = AllocFailed { value: 7 };
    assert_eq!((failed.to_string(), format!("{failed:?}")), ("memory allocation failed".into(), "AllocFailed { .. }".into()));
    assert_eq!(AllocError::from(failed), AllocError);
}

#[test]
fn chunks_are_arrays() {
    let (chunks, rest) = AsChunks::as_chunks::<2>(&[1u8, 2, 3, 4, 5][..]);
    assert_eq!((chunks.collect::<std::vec::Vec<_>>(), rest), (vec![&[1, 2], &[3, 4]], &[5][..]));
    assert_eq!(rattle_std::mem::take(&mut 3), 3);
}
