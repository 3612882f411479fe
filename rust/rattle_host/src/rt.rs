//! The runtime: a value that `main` and each test get as an argument, and with which they allocate, print and read. In
//! Rust's std such calls take no runtime.
use rattle_std::alloc::Global;
use crate::io::{self, Write};
use crate::process::Termination;
use core::fmt::Display;

/// The runtime of a program. Only the macro `main!` of `rattle_c` and [`test::run`](crate::test::run) create one.
///
/// In Rattle a function that takes no runtime can't print, read or stop the program.
#[derive(Clone, Copy, Debug)]
pub struct HostRuntime(());

/// Gives access to the allocator.
pub trait AllocGlobal {
    /// Returns the global allocator.
    fn alloc(&self) -> Global;
}

impl AllocGlobal for HostRuntime {
    fn alloc(&self) -> Global {
        Global
    }
}

/// Gives access to standard input.
pub trait Input {
    /// Returns a buffered reader over standard input.
    ///
    /// Its buffer has one byte, so it takes no byte from the input before that byte is needed. Another reader can
    /// therefore continue after it. Rust's `stdin().lock()` has a buffer of several KiB. If the allocation of the
    /// buffer fails, the program ends.
    fn reader(&self) -> io::BufReader<io::Stdin>;

    /// Returns an iterator over the lines of standard input, without their line feeds. Rust's counterpart is
    /// `stdin().lines()`.
    fn rattle_lines(&self, alloc: Global) -> io::Lines<io::BufReader<io::Stdin>> {
        io::BufReadIn::rattle_lines(self.reader(), alloc)
    }
}

impl Input for HostRuntime {
    fn reader(&self) -> io::BufReader<io::Stdin> {
        io::BufReader::with_capacity(1, self.stdin())
    }
}

/// Gives access to the arguments of the program, by [`env::args`](crate::env::args).
pub trait Env {}

impl Env for HostRuntime {}

impl HostRuntime {
    pub(crate) fn new() -> Self {
        HostRuntime(())
    }

    /// Returns standard input. On Unix it has no buffer.
    pub fn stdin(&self) -> io::Stdin {
        io::Stdin::new()
    }

    /// Returns standard output, which has no buffer.
    pub fn stdout(&self) -> io::Stdout {
        io::Stdout::new()
    }

    /// Returns standard error, which has no buffer.
    pub fn stderr(&self) -> io::Stderr {
        io::Stderr::new()
    }
}

/// Gives access to standard output, for printing.
pub trait Print {
    /// Prints a value to standard output. It fails if a write fails, or the value's `Display`; what was written before
    /// remains written. The first print allocates by Rust's std, and later ones allocate nothing.
    fn print(&self, text: impl Display) -> io::Result<()>;

    /// Prints a value to standard output, and a line feed after it. It fails as [`print`](Self::print) does.
    fn println(&self, text: impl Display) -> io::Result<()>;
}

impl Print for HostRuntime {
    fn print(&self, text: impl Display) -> io::Result<()> {
        io::written(self.stdout(), format_args!("{text}"))
    }

    fn println(&self, text: impl Display) -> io::Result<()> {
        io::written(self.stdout(), format_args!("{text}\n"))
    }
}

/// Gives access to standard error, for printing.
pub trait Eprint {
    /// Prints a value to standard error. It fails if a write fails, or the value's `Display`; what was written before
    /// remains written. It allocates nothing.
    fn eprint(&self, text: impl Display) -> io::Result<()>;

    /// Prints a value to standard error, and a line feed after it. It fails as [`eprint`](Self::eprint) does.
    fn eprintln(&self, text: impl Display) -> io::Result<()>;
}

impl Eprint for HostRuntime {
    fn eprint(&self, text: impl Display) -> io::Result<()> {
        io::written(self.stderr(), format_args!("{text}"))
    }

    fn eprintln(&self, text: impl Display) -> io::Result<()> {
        io::written(self.stderr(), format_args!("{text}\n"))
    }
}

/// Calls the function of a program with the runtime, flushes Rust's standard output, and returns the status that the
/// program ends with.
#[doc(hidden)]
pub fn status_of<T: Termination>(main: fn(HostRuntime) -> T) -> u8 {
    let status = main(HostRuntime::new()).report();
    let _ = rust_std::io::stdout().flush();
    status.status()
}
