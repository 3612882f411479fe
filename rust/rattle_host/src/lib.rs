//! What a program or a test that was made from verified Rattle source needs of Rattle's std: all of `rattle_std`, and the
//! *runtime*, the value with which a program or a test prints, reads and gets its arguments.
//!
//! In Rattle a call that prints, reads or stops the program takes the runtime, or is a method of it, and `main` and each
//! test get it as an argument. In Rust's std such calls take no runtime. In each file of a program, and of tests, that
//! `tools/erase` writes, this line gives this crate the name `std`; it also names the macros of this crate that the file
//! calls:
//!
//! ```
//! use rattle_host::{self as std, prelude::*};
//! ```
//!
//! This crate isn't verified, and has no `unsafe` code. Some of its calls also allocate by Rust's std, and end the program
//! if such an allocation fails: standard input and output when they are first used, readers of the runtime, which have a
//! buffer, `env::args`, and `Fail::new`.
#![no_std]
#![forbid(unsafe_code)]

#[doc(hidden)]
pub extern crate std as rust_std;

pub mod env;
pub mod io;
mod macros;
pub mod process;
pub mod rt;
pub mod test;

pub use rattle_std::{alloc, cmp, convert, error, fmt, iter, marker, mem, net, ops, result, slice, str, string, vec};
pub use rattle_std::{format, prove, prove_eq, prove_ne};

/// The traits whose methods erased code calls.
pub mod traits {
    pub use crate::io::{BufReadIn, ReadIn};
    pub use crate::process::ExpectOrStop;
    pub use rattle_std::traits::*;
}

/// What each erased file of a program, and of tests, imports: types, and the [traits] without their names.
pub mod prelude {
    pub use crate::rt::{AllocGlobal, Eprint, HostRuntime, Input, Print};
    pub use crate::traits::{BufReadIn as _, ExpectOrStop as _, ReadIn as _};
    pub use rattle_std::prelude::*;
}
