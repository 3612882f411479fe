//! Macros whose first argument is the allocator or the runtime, and macros for conditions that a proof has shown to be
//! true.

/// Creates a [`String`](crate::string::String) from a format: `format!(in alloc; "{} bytes", len)`.
///
/// Rust's `format!` takes no allocator, and returns a string. This one returns a `Result`: the error is an
/// [`AllocError`](crate::alloc::AllocError) if an allocation fails, or if the formatting of a value returns an error.
/// In the second case Rust's macro panics.
///
/// ```
/// use rattle_std::{alloc::Global, format};
///
/// assert_eq!(format!(in Global; "{} bytes", 7)?.as_str(), "7 bytes");
/// # Ok::<(), rattle_std::alloc::AllocError>(())
/// ```
#[macro_export]
macro_rules! format {
    (in $alloc:expr; $($text:tt)+) => {
        $crate::string::String::format($alloc, ::core::format_args!($($text)+))
    };
}

/// Creates a [`Vec`](crate::vec::Vec): `vec![in alloc; a, b]` of these values, `vec![in alloc; value; count]` of
/// `count` clones of a value, and `vec![in alloc]` without values.
///
/// Rust's `vec!` takes no allocator, and returns a vector. This one returns a `Result`: the error is an
/// [`AllocError`](crate::alloc::AllocError) if the allocation fails.
///
/// ```
/// use rattle_std::{alloc::Global, vec};
///
/// assert_eq!(*vec![in Global; 1, 2]?, [1, 2]);
/// assert_eq!(*vec![in Global; 7; 3]?, [7, 7, 7]);
/// let empty: rattle_std::vec::Vec<u8> = vec![in Global]?;
/// assert!(empty.is_empty());
/// # Ok::<(), rattle_std::alloc::AllocError>(())
/// ```
#[macro_export]
macro_rules! vec {
    (in $alloc:expr $(;)?) => {
        ::core::result::Result::<_, $crate::alloc::AllocError>::Ok($crate::vec::Vec::new($alloc))
    };
    (in $alloc:expr; $value:expr; $count:expr) => {
        $crate::vec::Vec::from_elem($alloc, $value, $count)
    };
    (in $alloc:expr; $($value:expr),+ $(,)?) => {
        $crate::vec::Vec::from_array($alloc, [$($value),+])
    };
}

/// Asserts a condition that a proof has shown to be true.
///
/// With debug assertions it panics if the condition is false, as `debug_assert!` does; it ignores the message. Without
/// debug assertions it doesn't evaluate the condition.
#[macro_export]
macro_rules! prove {
    ($condition:expr $(, $($message:tt)*)?) => {
        ::core::debug_assert!($condition)
    };
}

/// Asserts that two values are equal, as a proof has shown.
///
/// With debug assertions it panics if the values differ; it prints neither the values nor the message. Without debug
/// assertions it doesn't evaluate the values.
#[macro_export]
macro_rules! prove_eq {
    ($left:expr, $right:expr $(, $($message:tt)*)?) => {
        ::core::debug_assert!($left == $right)
    };
}

/// Asserts that two values differ, as a proof has shown.
///
/// With debug assertions it panics if the values are equal; it prints neither the values nor the message. Without debug
/// assertions it doesn't evaluate the values.
#[macro_export]
macro_rules! prove_ne {
    ($left:expr, $right:expr $(, $($message:tt)*)?) => {
        ::core::debug_assert!($left != $right)
    };
}
