//! The C library of `octets.h`, for every target of rustc whose `usize` has 32 or 64 bits.
//!
//! `tools/erase` writes the module `exports`. Each export makes slices of C's pointers by `rattle_c`, which isn't
//! verified, and calls the verified function of the same name in `octets_c_verified`. The library allocates no memory
//! and has no global state.
#![no_std]
#![deny(unsafe_code, unsafe_op_in_unsafe_fn)]

#[allow(unsafe_code)]
mod exports;
#[allow(unsafe_code)]
mod status;

rattle_c::library!();
