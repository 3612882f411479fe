//! Helpers for a C library whose functions were verified in Rattle: [`shown`] and [`lent`] make slices of C's pointers
//! and lengths, and [`library!`] defines a panic handler that ends the program. With the feature `main` there is also a
//! macro `main!`, which defines the `main` function of a program.
//!
//! `tools/erase` writes the exports of such a library, and they call this crate. It isn't verified.
#![no_std]
#![deny(unsafe_op_in_unsafe_fn)]

#[cfg(feature = "main")]
mod program;
#[cfg(feature = "main")]
#[doc(hidden)]
pub use rattle_host;

use core::slice::{from_raw_parts, from_raw_parts_mut};

/// Makes a slice of a pointer and a length from C.
///
/// If `len` is 0, it returns an empty slice and doesn't use the pointer, which may be NULL. In this it differs from
/// `core::slice::from_raw_parts`, whose pointer must not be NULL.
///
/// # Safety
///
/// If `len` isn't 0, `at` has to be aligned and to point to `len` initialized items of one allocation, which have at
/// most `isize::MAX` bytes, and no code may write these items while the slice is used.
#[inline(always)]
pub unsafe fn shown<'a, T>(at: *const T, len: usize) -> &'a [T] {
    if len == 0 {
        return &[];
    }
    unsafe { from_raw_parts(at, len) }
}

/// Makes a mutable slice of a pointer and a length from C.
///
/// If `len` is 0, it returns an empty slice and doesn't use the pointer, which may be NULL. In this it differs from
/// `core::slice::from_raw_parts_mut`, whose pointer must not be NULL.
///
/// # Safety
///
/// If `len` isn't 0, `at` has to be aligned and to point to `len` initialized items of one allocation, which have at
/// most `isize::MAX` bytes, and no other code may read or write these items while the slice is used.
#[inline(always)]
pub unsafe fn lent<'a, T>(at: *mut T, len: usize) -> &'a mut [T] {
    if len == 0 {
        return &mut [];
    }
    unsafe { from_raw_parts_mut(at, len) }
}

/// Defines the panic handler and the global allocator of a C library that is built without Rust's std. Call it once, in
/// the root of the library.
///
/// A panic calls C's `abort`; on wasm it traps. The proofs exclude every panic if `usize` has 64 bits. Every allocation
/// fails, since no export allocates.
#[macro_export]
macro_rules! library {
    () => {
        #[allow(unsafe_code)]
        mod stop {
            #[cfg(not(target_family = "wasm"))]
            unsafe extern "C" {
                safe fn abort() -> !;
            }

            #[panic_handler]
            fn panic(_: &core::panic::PanicInfo<'_>) -> ! {
                #[cfg(target_family = "wasm")]
                core::arch::wasm32::unreachable();
                #[cfg(not(target_family = "wasm"))]
                abort()
            }

            struct NoMemory;

            unsafe impl core::alloc::GlobalAlloc for NoMemory {
                unsafe fn alloc(&self, _: core::alloc::Layout) -> *mut u8 {
                    core::ptr::null_mut()
                }

                unsafe fn dealloc(&self, _: *mut u8, _: core::alloc::Layout) {}
            }

            #[global_allocator]
            static NO_MEMORY: NoMemory = NoMemory;
        }
    };
}
