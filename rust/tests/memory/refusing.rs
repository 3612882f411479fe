//! An allocator that fails on request. It is the system's allocator, except that a thread can choose one of its next
//! allocations to fail.
use std::alloc::{GlobalAlloc, Layout, System};
use std::cell::Cell;

/// The global allocator of the tests.
struct Refusing;

thread_local! {
    /// The number of allocations of this thread that succeed before one fails, or `None` if none is to fail.
    static LEFT: Cell<Option<usize>> = const { Cell::new(None) };
    /// The number of bytes of this thread's last allocation that failed.
    static REFUSED: Cell<usize> = const { Cell::new(0) };
}

/// Returns whether this allocation is the one that fails, and counts it. The allocations after that one succeed. So do
/// those of a panic: if one of them failed, a test whose assertion fails would hang.
fn fails(size: usize) -> bool {
    if std::thread::panicking() {
        return false;
    }
    LEFT.try_with(|left| match left.get() {
        Some(0) => {
            left.set(None);
            REFUSED.set(size);
            true
        }
        some => {
            left.set(some.map(|count| count - 1));
            false
        }
    })
    .unwrap_or(false)
}

// SAFETY: each method returns a null pointer, or passes the caller's arguments to the same method of `System`.
unsafe impl GlobalAlloc for Refusing {
    unsafe fn alloc(&self, layout: Layout) -> *mut u8 {
        if fails(layout.size()) {
            return std::ptr::null_mut();
        }
        unsafe { System.alloc(layout) }
    }

    /// Calls the system's method, which zeroes a page only when the page is accessed.
    unsafe fn alloc_zeroed(&self, layout: Layout) -> *mut u8 {
        if fails(layout.size()) {
            return std::ptr::null_mut();
        }
        unsafe { System.alloc_zeroed(layout) }
    }

    unsafe fn realloc(&self, at: *mut u8, layout: Layout, size: usize) -> *mut u8 {
        if fails(size) {
            return std::ptr::null_mut();
        }
        unsafe { System.realloc(at, layout, size) }
    }

    unsafe fn dealloc(&self, at: *mut u8, layout: Layout) {
        unsafe { System.dealloc(at, layout) }
    }
}

#[global_allocator]
static ALLOCATOR: Refusing = Refusing;

/// Runs `call`, in which `count` allocations succeed and the next one fails. Returns its result, and whether an
/// allocation failed. After it no allocation fails, also if `call` panics.
pub fn failing_after<T>(count: usize, call: impl FnOnce() -> T) -> (T, bool) {
    struct Ends;
    impl Drop for Ends {
        fn drop(&mut self) {
            LEFT.set(None);
        }
    }
    let _ends = Ends;
    LEFT.set(Some(count));
    let made = call();
    (made, LEFT.get().is_none())
}

/// Returns the number of bytes of this thread's last allocation that failed.
#[allow(dead_code, reason = "not every test that has this module asks")]
pub fn refused_bytes() -> usize {
    REFUSED.get()
}
