//! The function that runs a test, and the results that a test may return. Erased tests use them; in Rust's std they
//! have no counterpart.
use crate::rt::HostRuntime;
use core::fmt::{Debug, Display};
use rust_std::string::String;

/// The error of a failed test: a message with the reason.
///
/// It doesn't implement `Debug`, so that the operator `?` can convert every error that implements `Debug` into a
/// `Fail`.
pub struct Fail(String);

impl Fail {
    /// Creates a failure with this reason.
    pub fn new(why: impl Display) -> Self {
        Fail(rust_std::format!("{why}"))
    }
}

impl<E: Debug> From<E> for Fail {
    fn from(error: E) -> Self {
        Fail::new(format_args!("error: {error:?}"))
    }
}

/// A type that a test may return.
pub trait Outcome {
    /// Panics if the test failed.
    fn judge(self);
}

impl Outcome for () {
    fn judge(self) {}
}

impl Outcome for Result<(), Fail> {
    fn judge(self) {
        if let Err(Fail(why)) = self {
            panic!("{why}")
        }
    }
}

impl<E: Debug> Outcome for Result<(), E> {
    fn judge(self) {
        if let Err(error) = self {
            panic!("error: {error:?}")
        }
    }
}

/// Calls the function of a test with the runtime, and panics if the test fails.
pub fn run<T: Outcome>(body: fn(HostRuntime) -> T) {
    body(HostRuntime::new()).judge()
}
