//! The parts of Rattle's std that Rust's std lacks or has in another form, written over Rust's std. The Rust libraries
//! that are made from verified Rattle source depend on this crate; programs, and tests, depend on `rattle_host`, which has
//! more.
//!
//! Rattle is a dialect of Rust with contracts. Its std has the same names as Rust's, with one difference here: a call that
//! allocates takes the allocator, or a collection that was made with it, and returns an error if the allocation fails. In
//! Rust's std such a call ends the program.
//!
//! ```
//! use rattle_std::alloc::{AllocError, Global};
//! use rattle_std::prelude::*;
//!
//! fn squares(alloc: Global, count: u32) -> Result<Vec<u32>, AllocError> {
//!     let mut all = Vec::with_capacity(alloc, 3)?;
//!     for n in 1..count {
//!         all.push(n * n)?;
//!     }
//!     Ok(all)
//! }
//!
//! assert_eq!(*squares(Global, 4)?, [1, 4, 9]);
//! # Ok::<(), AllocError>(())
//! ```
//!
//! `tools/erase` removes the contracts from the source of a proved crate. In each file that it writes, this line gives
//! this crate the name `std`:
//!
//! ```
//! use rattle_std::{self as std, prelude::*};
//! ```
//!
//! Everything that has the same form in both languages is re-exported from Rust's std.
//!
//! This crate isn't verified, and has no `unsafe` code. It needs `alloc`, but not `std`. Without features it has only what
//! the crate `octets` needs. The feature `full` adds strings, the macros `format!`, `vec!` and `prove!`, `rattle_collect` and
//! other methods of iterators, and the other methods of vectors. The feature `std` makes a vector a writer of Rust's std,
//! and a failed allocation an error of it.
#![no_std]
#![forbid(unsafe_code)]

#[cfg(not(any(target_pointer_width = "32", target_pointer_width = "64")))]
compile_error!(
    "`usize` has neither 32 nor 64 bits on this target. The verified code compares lengths with numbers that a \
     smaller `usize` doesn't hold, and no proof or test is of a larger one."
);

extern crate alloc as rust_alloc;
#[cfg(feature = "std")]
extern crate std as rust_std;

pub mod alloc;
#[cfg(feature = "full")]
mod iter_in;
#[cfg(feature = "full")]
mod macros;
mod slices;
#[cfg(feature = "full")]
pub mod string;
#[cfg(feature = "full")]
mod text;
pub mod vec;
#[cfg(feature = "std")]
#[doc(hidden)]
pub mod writes;
#[cfg(feature = "full")]
mod zip;

pub use core::{cmp, convert, error, fmt, marker, net, ops, result, slice, str};

/// Functions that move values. Rust's module has more functions, such as those that return the size of a type, which
/// Rattle's module lacks or defines differently.
pub mod mem {
    pub use core::mem::{replace, swap, take};
}

/// Rust's iterators, with a [`Zip`](crate::iter::Zip) that calls the methods `next` of its iterators in the same order
/// as Rattle's.
#[cfg(feature = "full")]
pub mod iter {
    pub use crate::zip::Zip;
    pub use core::iter::*;
}

/// The traits whose methods erased code calls.
pub mod traits {
    #[cfg(feature = "full")]
    pub use crate::{
        iter_in::IteratorIn,
        slices::full::SliceIn,
        text::{RepeatIn, StrIn, ToStringIn},
        zip::{ZipIteratorInTurn, ZipOptionInTurn},
    };
    pub use crate::slices::AsChunks;
}

/// What each erased file imports: types, and the [traits], whose names stay free for a trait of the file.
pub mod prelude {
    pub use crate::traits::AsChunks as _;
    pub use crate::vec::Vec;
    #[cfg(feature = "full")]
    pub use crate::{
        string::String,
        traits::{IteratorIn as _, RepeatIn as _, SliceIn as _, StrIn as _, ToStringIn as _, ZipIteratorInTurn as _, ZipOptionInTurn as _},
    };
}
