//! The status that a program ends with, and the methods that may stop it.
use core::fmt;
use rust_std::process;

/// A value with which a function may stop the program by a panic: the runtime, or a reference to it.
///
/// Among the verified functions only tests take such a value. Rust's std has no counterpart, since every function may
/// panic.
pub trait Abort {}

impl Abort for crate::rt::HostRuntime {}

impl<R: Abort> Abort for &R {}

/// The status that a program ends with, from 0 to 255. It corresponds to Rust's `ExitCode`.
#[derive(Clone, Copy, Debug, Default, PartialEq, Eq)]
pub struct ExitCode(u8);

impl ExitCode {
    /// The status 0, which says that the program succeeded.
    pub const SUCCESS: ExitCode = ExitCode(0);
    /// The status 1, which says that the program failed.
    pub const FAILURE: ExitCode = ExitCode(1);

    pub(crate) fn status(self) -> u8 {
        self.0
    }
}

impl From<u8> for ExitCode {
    fn from(status: u8) -> Self {
        ExitCode(status)
    }
}

impl From<ExitCode> for process::ExitCode {
    fn from(code: ExitCode) -> Self {
        process::ExitCode::from(code.0)
    }
}

/// A type that the function which the macro `main!` of `rattle_c` calls may return. It corresponds to Rust's `Termination`.
pub trait Termination {
    /// Returns the status that the program ends with.
    fn report(self) -> ExitCode;
}

impl Termination for () {
    fn report(self) -> ExitCode {
        ExitCode::SUCCESS
    }
}

impl Termination for ExitCode {
    fn report(self) -> ExitCode {
        self
    }
}

/// If the result is an error, it is printed to standard error, and the status is 1.
impl<T: Termination, E: fmt::Debug> Termination for Result<T, E> {
    fn report(self) -> ExitCode {
        match self {
            Ok(value) => value.report(),
            Err(error) => {
                let _ = crate::rt::Eprint::eprintln(&crate::rt::HostRuntime::new(), format_args!("Error: {error:?}"));
                ExitCode::FAILURE
            }
        }
    }
}

/// The methods of `Result` and `Option` that Rattle names `expect` and `expect_err`. They have other names here, since
/// Rust's methods of these names don't take the runtime.
pub trait ExpectOrStop<T, E> {
    /// Returns the value of `Ok` or `Some`.
    ///
    /// # Panics
    ///
    /// It panics if the result is `Err` or the option is `None`. The message of the panic is `message`, and the error
    /// if there is one.
    fn rattle_expect(self, rt: &impl Abort, message: &str) -> T;

    /// Returns the error of `Err`, or `()` for `None`.
    ///
    /// # Panics
    ///
    /// It panics if the result is `Ok` or the option is `Some`. The message of the panic is `message` and the value.
    fn rattle_expect_err(self, rt: &impl Abort, message: &str) -> E
    where
        T: fmt::Debug;
}

impl<T, E: fmt::Debug> ExpectOrStop<T, E> for Result<T, E> {
    fn rattle_expect(self, _: &impl Abort, message: &str) -> T {
        self.expect(message)
    }

    fn rattle_expect_err(self, _: &impl Abort, message: &str) -> E
    where
        T: fmt::Debug,
    {
        self.expect_err(message)
    }
}

impl<T> ExpectOrStop<T, ()> for Option<T> {
    fn rattle_expect(self, _: &impl Abort, message: &str) -> T {
        self.expect(message)
    }

    fn rattle_expect_err(self, _: &impl Abort, message: &str)
    where
        T: fmt::Debug,
    {
        assert!(self.is_none(), "{message}: {self:?}")
    }
}
