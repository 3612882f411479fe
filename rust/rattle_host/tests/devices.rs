//! Tests of the streams over a file that notes each call. The crate's source of the streams is a module of this program,
//! and this program has the place of Rust's std there. So a stream opens the file below.
#![cfg(unix)]
extern crate self as rust_std;

pub use std::{io, os};

#[allow(dead_code)]
#[path = "../src/io.rs"]
mod streams;

use fs::{calls, failing, refusing};
use std::io::{ErrorKind, Read, Write};
use streams::{Stderr, Stdin, Stdout};

/// What this program has in place of `std::fs`.
pub mod fs {
    use std::cell::{Cell, RefCell};
    use std::io::{Error, ErrorKind, Read, Result, Write};

    thread_local! {
        static CALLS: RefCell<Vec<String>> = const { RefCell::new(Vec::new()) };
        /// Whether a flush fails.
        static FAILS: Cell<bool> = const { Cell::new(false) };
        /// The error of each read and write, if they fail.
        static REFUSES: Cell<Option<ErrorKind>> = const { Cell::new(None) };
    }

    /// Runs `run`, and returns the calls of the file that it made.
    pub fn calls(run: impl FnOnce() -> Result<()>) -> Vec<String> {
        CALLS.take();
        run().unwrap();
        CALLS.take()
    }

    /// Runs `run`, in which each flush of the file fails.
    pub fn failing<T>(run: impl FnOnce() -> T) -> T {
        FAILS.set(true);
        let made = run();
        FAILS.set(false);
        made
    }

    /// Runs `run`, in which each read and write of the file fails with this error.
    pub fn refusing<T>(kind: ErrorKind, run: impl FnOnce() -> T) -> T {
        REFUSES.set(Some(kind));
        let made = run();
        REFUSES.set(None);
        made
    }

    fn refused() -> Result<()> {
        REFUSES.get().map_or(Ok(()), |kind| Err(Error::from(kind)))
    }

    fn noted(call: String) {
        CALLS.with_borrow_mut(|calls| calls.push(call));
    }

    /// A file that reads and writes at most two bytes at once.
    #[derive(Debug)]
    pub struct File;

    impl From<std::os::fd::OwnedFd> for File {
        fn from(_: std::os::fd::OwnedFd) -> Self {
            File
        }
    }

    impl Read for File {
        fn read(&mut self, buffer: &mut [u8]) -> Result<usize> {
            noted(format!("read {}", buffer.len()));
            refused()?;
            b"\xc3\x9f".as_slice().read(buffer)
        }
    }

    impl Write for File {
        fn write(&mut self, bytes: &[u8]) -> Result<usize> {
            noted(format!("write {}", bytes.escape_ascii()));
            refused()?;
            Ok(bytes.len().min(2))
        }

        fn flush(&mut self) -> Result<()> {
            noted("flush".to_string());
            if FAILS.get() { Err(Error::from(ErrorKind::StorageFull)) } else { Ok(()) }
        }
    }
}

/// The rest of a short write is written too.
#[test]
fn a_write_goes_on() {
    let written = calls(|| Stdout::new().write_all(b"ab\xffd\xc3"));
    assert_eq!(written, [r"write ab\xffd\xc3", "flush", r"write \xffd\xc3", "flush", r"write \xc3", "flush"]);
    let written = calls(|| Stderr::new().write_all(b"ab\xffd\xc3"));
    assert_eq!(written, [r"write ab\xffd\xc3", r"write \xffd\xc3", r"write \xc3"]);
    assert_eq!((Stdout::new().write(b"abc").unwrap(), Stderr::new().write(b"abc").unwrap()), (2, 2));
}

/// A flush of a stream is one of its file, and fails if that fails. A write to standard output is a flush too.
#[test]
fn a_flush_is_of_the_file() {
    assert_eq!(calls(|| Stdout::new().flush()), ["flush"]);
    assert_eq!(calls(|| Stderr::new().flush()), ["flush"]);
    let failed = failing(|| [Stdout::new().flush(), Stderr::new().flush(), Stdout::new().write_all(b"a")]);
    assert_eq!(failed.map(|done| done.unwrap_err().kind()), [ErrorKind::StorageFull; 3]);
    failing(|| Stderr::new().write_all(b"a")).unwrap();
}

/// A print flushes the stream after the last write, and fails if that fails.
#[test]
fn a_print_ends_with_a_flush() {
    let print = |text: &str| streams::written(Stderr::new(), format_args!("{text}{}", 7));
    assert_eq!(calls(|| print("ab")), ["write ab7", "write 7", "flush"]);
    assert_eq!(failing(|| print("a")).unwrap_err().kind(), ErrorKind::StorageFull);
}

/// A writer that notes what it is given, and fails at the write of this number.
struct Failing<'a>(&'a mut Vec<usize>, usize);

impl Write for Failing<'_> {
    fn write(&mut self, bytes: &[u8]) -> std::io::Result<usize> {
        self.0.push(bytes.len());
        if self.0.len() == self.1 { Err(ErrorKind::BrokenPipe.into()) } else { Ok(bytes.len()) }
    }

    fn flush(&mut self) -> std::io::Result<()> {
        Ok(())
    }
}

/// A text of 1,500 bytes. It goes on after a piece that couldn't be written, and returns no error.
struct GoesOn;

impl std::fmt::Display for GoesOn {
    fn fmt(&self, f: &mut std::fmt::Formatter<'_>) -> std::fmt::Result {
        for _ in 0..1500 {
            let _ = f.write_str("x");
        }
        Ok(())
    }
}

/// What a failed write was given isn't written again, and the error is returned.
#[test]
fn a_print_writes_nothing_twice() {
    let long = "x".repeat(1500);
    for (failing, wanted) in [(1, &[1024][..]), (2, &[1024, 476]), (3, &[1024, 476])] {
        let mut sizes = Vec::new();
        let printed = streams::written(Failing(&mut sizes, failing), format_args!("{}", long));
        assert_eq!((printed.err().map(|why| why.kind()), &*sizes), ((failing < 3).then_some(ErrorKind::BrokenPipe), wanted));
    }
}

/// The error of a write is returned even if the value's `Display` returns none.
#[test]
fn an_error_of_a_write_is_not_lost() {
    let mut sizes = Vec::new();
    let printed = streams::written(Failing(&mut sizes, 1), format_args!("{GoesOn}"));
    assert_eq!(printed.unwrap_err().kind(), ErrorKind::BrokenPipe);
    let failed = failing(|| Stdout::new().write_fmt(format_args!("{GoesOn}")));
    assert_eq!(failed.unwrap_err().kind(), ErrorKind::StorageFull);
}

/// A read is one of the file, with the same buffer, also if that is empty.
#[test]
fn a_read_is_of_the_file() {
    let mut buffer = [0; 9];
    assert_eq!(calls(|| Stdin::new().read_exact(&mut buffer[..1])), ["read 1"]);
    assert_eq!(buffer, *b"\xc3\0\0\0\0\0\0\0\0");
    assert_eq!(calls(|| Stdin::new().read(&mut buffer).map(|_| ())), ["read 9"]);
    assert_eq!(calls(|| Stdin::new().read(&mut []).map(|_| ())), ["read 0"]);
}

/// An error of the file is returned, and isn't the end of the input, or tried again.
#[test]
fn an_error_is_of_the_file() {
    for kind in [ErrorKind::Interrupted, ErrorKind::WouldBlock, ErrorKind::UnexpectedEof, ErrorKind::BrokenPipe, ErrorKind::Other] {
        let mut buffer = [7; 2];
        let failed = refusing(kind, || {
            [Stdin::new().read(&mut buffer), Stdout::new().write(b"a"), Stderr::new().write(b"a")]
        });
        assert_eq!(failed.map(|done| done.unwrap_err().kind()), [kind; 3]);
        assert_eq!(buffer, [7; 2]);
        let made = calls(|| {
            refusing(kind, || Stdout::new().write(b"a")).unwrap_err();
            Ok(())
        });
        assert_eq!(made, ["write a"]);
    }
}

/// A writer that keeps what it is given.
struct Keeps<'a>(&'a mut Vec<u8>);

impl Write for Keeps<'_> {
    fn write(&mut self, bytes: &[u8]) -> std::io::Result<usize> {
        self.0.write(bytes)
    }

    fn flush(&mut self) -> std::io::Result<()> {
        Ok(())
    }
}

/// Each text is printed whole, whatever its length and its last byte are, at once and character by character.
#[test]
fn a_text_of_each_length_is_printed_whole() {
    for len in (0..4).chain(1020..1030).chain(2044..2052) {
        for last in ['x', '\n', '\r', '\0', ' '] {
            let text = format!("{}{last}", "y".repeat(len));
            let (mut whole, mut parts) = (Vec::new(), Vec::new());
            streams::written(Keeps(&mut whole), format_args!("{text}")).unwrap();
            streams::written(Keeps(&mut parts), format_args!("{}{last}", &text[..len])).unwrap();
            assert!(whole == text.as_bytes() && parts == whole, "{len} {last:?}");
        }
    }
}
