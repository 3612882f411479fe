//! Input and output: everything of Rust's `std::io`, but with other standard streams, which have no buffer and return
//! an error if their descriptor is closed, and with traits that read into the collections of this crate.
use rattle_std::alloc::Global;
use rattle_std::string::String;
use rattle_std::vec::Vec;
use core::{fmt, str};
use rattle_std::writes::format_to;
use rust_std::io;

pub use rust_std::io::*;

/// The files that the standard streams read from and write to on Unix: duplicates of their descriptors.
#[cfg(unix)]
mod device {
    use super::io;
    use rust_std::fs::File;
    use rust_std::os::fd::AsFd;

    pub(super) type Input = File;
    pub(super) type Output = File;
    pub(super) type Errors = File;

    fn duplicate(stream: impl AsFd) -> io::Result<File> {
        Ok(File::from(stream.as_fd().try_clone_to_owned()?))
    }

    pub(super) fn input() -> io::Result<Input> {
        duplicate(io::stdin())
    }

    pub(super) fn output() -> io::Result<Output> {
        duplicate(io::stdout())
    }

    pub(super) fn errors() -> io::Result<Errors> {
        duplicate(io::stderr())
    }
}

/// The streams that the standard streams read from and write to on systems without descriptors: those of Rust's std.
#[cfg(not(unix))]
mod device {
    use super::io;

    pub(super) type Input = io::Stdin;
    pub(super) type Output = io::Stdout;
    pub(super) type Errors = io::Stderr;

    pub(super) fn input() -> io::Result<Input> {
        Ok(io::stdin())
    }

    pub(super) fn output() -> io::Result<Output> {
        Ok(io::stdout())
    }

    pub(super) fn errors() -> io::Result<Errors> {
        Ok(io::stderr())
    }
}

/// Returns the file or stream if it could be opened. Otherwise it returns the error again: since `io::Error` can't be
/// cloned, it makes an error with the same code of the system or, if there is none, of the same kind.
fn opened<D>(device: &mut io::Result<D>) -> io::Result<&mut D> {
    match device {
        Ok(device) => Ok(device),
        Err(why) => Err(match why.raw_os_error() {
            Some(code) => io::Error::from_raw_os_error(code),
            None => io::Error::from(why.kind()),
        }),
    }
}

/// Standard input, which [`HostRuntime::stdin`](crate::rt::HostRuntime::stdin) returns.
///
/// On Unix it has no buffer: each read is a read of the system. If the descriptor is closed, each read fails; Rust's
/// `Stdin` is buffered, and reads a closed descriptor as an empty input.
#[derive(Debug)]
pub struct Stdin(io::Result<device::Input>);

/// Standard output, which [`HostRuntime::stdout`](crate::rt::HostRuntime::stdout) returns.
///
/// It has no buffer: when a write returns, the system has the bytes. If the descriptor is closed, on Unix, each write
/// fails; Rust's `Stdout` is buffered, and discards what is written to a closed descriptor.
#[derive(Debug)]
pub struct Stdout(io::Result<device::Output>);

/// Standard error, which [`HostRuntime::stderr`](crate::rt::HostRuntime::stderr) returns.
///
/// It has no buffer. If the descriptor is closed, on Unix, each write fails; Rust's `Stderr` discards what is written
/// to a closed descriptor.
#[derive(Debug)]
pub struct Stderr(io::Result<device::Errors>);

impl Stdin {
    pub(crate) fn new() -> Self {
        Stdin(device::input())
    }
}

impl Stdout {
    pub(crate) fn new() -> Self {
        Stdout(device::output())
    }
}

impl Stderr {
    pub(crate) fn new() -> Self {
        Stderr(device::errors())
    }
}

impl io::Read for Stdin {
    fn read(&mut self, buffer: &mut [u8]) -> io::Result<usize> {
        opened(&mut self.0)?.read(buffer)
    }
}

impl io::Write for Stdout {
    fn write(&mut self, bytes: &[u8]) -> io::Result<usize> {
        let device = opened(&mut self.0)?;
        let count = device.write(bytes)?;
        device.flush()?;
        Ok(count)
    }

    fn flush(&mut self) -> io::Result<()> {
        opened(&mut self.0)?.flush()
    }

    fn write_fmt(&mut self, text: fmt::Arguments<'_>) -> io::Result<()> {
        format_to(self, text)
    }
}

impl io::Write for Stderr {
    fn write(&mut self, bytes: &[u8]) -> io::Result<usize> {
        opened(&mut self.0)?.write(bytes)
    }

    fn flush(&mut self) -> io::Result<()> {
        opened(&mut self.0)?.flush()
    }

    fn write_fmt(&mut self, text: fmt::Arguments<'_>) -> io::Result<()> {
        format_to(self, text)
    }
}

/// A buffer of 1024 bytes before a writer. It allocates nothing, so a program can print when memory is exhausted.
struct Buffered<W> {
    out: W,
    bytes: [u8; 1024],
    len: usize,
}

impl<W: io::Write> io::Write for Buffered<W> {
    fn write(&mut self, bytes: &[u8]) -> io::Result<usize> {
        if self.len == self.bytes.len() {
            self.flush()?;
        }
        let count = (&mut self.bytes[self.len..]).write(bytes)?;
        self.len += count;
        Ok(count)
    }

    fn flush(&mut self) -> io::Result<()> {
        let len = core::mem::take(&mut self.len);
        self.out.write_all(&self.bytes[..len])?;
        self.out.flush()
    }
}

/// Formats `text`, and writes it to `out` through a buffer, so that a short text is one write. It also writes what was
/// formatted before an error.
pub(crate) fn written(out: impl io::Write, text: fmt::Arguments<'_>) -> io::Result<()> {
    let mut buffered = Buffered { out, bytes: [0; 1024], len: 0 };
    let formatted = format_to(&mut buffered, text);
    io::Write::flush(&mut buffered)?;
    formatted
}

/// The methods that Rattle names `read_to_end` and `read_to_string`. They have other names here, since Rust's methods
/// of these names read into Rust's collections and end the program if an allocation fails.
pub trait ReadIn: io::Read {
    /// Reads all bytes up to the end of the input, appends them to `bytes`, and returns how many bytes it read.
    ///
    /// # Errors
    ///
    /// It fails with the error of a read, unless that is `Interrupted`; then it reads again. It fails with
    /// `OutOfMemory` if an allocation fails; then the bytes of the last read, at most 4096, are lost. The bytes that it
    /// read before the error have been appended.
    fn rattle_read_to_end(&mut self, bytes: &mut Vec<u8>) -> io::Result<usize> {
        let before = bytes.len();
        let mut part = [0; 4096];
        loop {
            match self.read(&mut part) {
                Ok(0) => return Ok(bytes.len() - before),
                Ok(count) => io::Write::write_all(bytes, &part[..count])?,
                Err(why) if why.kind() == io::ErrorKind::Interrupted => {}
                Err(why) => return Err(why),
            }
        }
    }

    /// Reads all bytes up to the end of the input, appends them to `text`, and returns how many bytes it read.
    ///
    /// # Errors
    ///
    /// It fails with `InvalidData` if the bytes aren't valid UTF-8, with `OutOfMemory` if an allocation fails, and with
    /// the error of a read. Then `text` is unchanged, and the bytes that it read are lost.
    fn rattle_read_to_string(&mut self, text: &mut String) -> io::Result<usize> {
        let mut bytes = Vec::new(Global);
        let count = self.rattle_read_to_end(&mut bytes)?;
        append(text, &bytes)?;
        Ok(count)
    }
}

impl<R: io::Read + ?Sized> ReadIn for R {}

fn append(text: &mut String, bytes: &[u8]) -> io::Result<()> {
    let more = str::from_utf8(bytes).map_err(|_| io::Error::from(io::ErrorKind::InvalidData))?;
    Ok(text.push_str(more)?)
}

/// The methods of a buffered reader that Rattle names `read_line` and `lines`. They have other names here, since Rust's
/// methods of these names use Rust's `String`.
pub trait BufReadIn: io::BufRead {
    /// Reads a line, appends it to `text` with its line feed, and returns how many bytes it read. At the end of the
    /// input it returns 0. The last line may have no line feed.
    ///
    /// # Errors
    ///
    /// It fails with `InvalidData` if the line isn't valid UTF-8, with `OutOfMemory` if an allocation fails, and with the
    /// error of a read, unless that is `Interrupted`; then it reads again. After an error `text` is unchanged, and the
    /// bytes that it read are lost.
    fn rattle_read_line(&mut self, text: &mut String) -> io::Result<usize> {
        let mut line = Vec::new(Global);
        loop {
            let part = match self.fill_buf() {
                Ok(buffer) => buffer.split_inclusive(|byte| *byte == b'\n').next().unwrap_or_default(),
                Err(why) if why.kind() == io::ErrorKind::Interrupted => continue,
                Err(why) => return Err(why),
            };
            line.extend_from_slice(part)?;
            let (count, is_last) = (part.len(), part.is_empty() || part.ends_with(b"\n"));
            self.consume(count);
            if is_last {
                append(text, &line)?;
                return Ok(line.len());
            }
        }
    }

    /// Returns an iterator over the lines of the input. A line has neither its line feed nor a carriage return before
    /// the line feed.
    ///
    /// In Rust's std this method takes no allocator. An item of the iterator is an error if
    /// [`rattle_read_line`](Self::rattle_read_line) fails.
    fn rattle_lines(self, alloc: Global) -> Lines<Self>
    where
        Self: Sized,
    {
        Lines { reader: self, alloc }
    }
}

impl<R: io::BufRead + ?Sized> BufReadIn for R {}

/// An iterator over the lines of a reader, which [`BufReadIn::rattle_lines`] returns.
#[derive(Debug)]
pub struct Lines<R> {
    reader: R,
    alloc: Global,
}

impl<R: io::BufRead> Iterator for Lines<R> {
    type Item = io::Result<String>;

    fn next(&mut self) -> Option<io::Result<String>> {
        let mut line = String::new(self.alloc);
        match self.reader.rattle_read_line(&mut line) {
            Ok(0) => None,
            Ok(_) => {
                let len = line.strip_suffix('\n').map_or(line.len(), |text| text.strip_suffix('\r').unwrap_or(text).len());
                line.truncate(len);
                Some(Ok(line))
            }
            Err(why) => Some(Err(why)),
        }
    }
}
