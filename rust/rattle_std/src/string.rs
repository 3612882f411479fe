//! A string whose calls return an error if an allocation fails.
use crate::alloc::{AllocError, Global};
use crate::vec::Vec;
use core::fmt::{self, Write};
use core::ops::Deref;
use core::str::Utf8Error;
use rust_alloc::string;

/// A growable string in UTF-8, which contains a `String` of Rust's std. `From` converts each to the other without
/// copying.
///
/// It dereferences to a `str`, so it has the methods of `str`. It differs from Rust's `String` in two points: a call
/// that allocates returns an error if the allocation fails, and a call that creates a string takes the allocator. It
/// isn't `Clone`, since a clone allocates.
///
/// ```
/// use rattle_std::alloc::{AllocError, Global};
/// use rattle_std::string::String;
///
/// let mut text = String::from_str(Global, "ab")?;
/// text.push('c')?;
/// assert_eq!(text.as_str(), "abc");
/// # Ok::<(), AllocError>(())
/// ```
#[derive(PartialEq, Eq, PartialOrd, Ord, Hash)]
pub struct String(pub(crate) string::String);

/// The error of [`String::from_utf8`] if the bytes aren't valid UTF-8. It contains the bytes.
#[derive(Debug, PartialEq, Eq)]
pub struct FromUtf8Error {
    bytes: Vec<u8>,
    error: Utf8Error,
}

impl FromUtf8Error {
    /// Returns the bytes that aren't valid UTF-8.
    pub fn into_bytes(self) -> Vec<u8> {
        self.bytes
    }

    /// Returns the error of Rust's std that says where the bytes stop being valid UTF-8.
    pub fn utf8_error(&self) -> Utf8Error {
        self.error
    }
}

impl String {
    /// Creates an empty string. It allocates nothing.
    pub const fn new(_: Global) -> Self {
        String(string::String::new())
    }

    /// Creates an empty string with a capacity of at least `capacity` bytes. It returns an error if the allocation
    /// fails.
    pub fn with_capacity(_: Global, capacity: usize) -> Result<Self, AllocError> {
        let mut made = string::String::new();
        made.try_reserve_exact(capacity).map_err(|_| AllocError)?;
        Ok(String(made))
    }

    /// Creates a string as a copy of `text`. It returns an error if the allocation fails.
    #[allow(clippy::should_implement_trait)]
    pub fn from_str(alloc: Global, text: &str) -> Result<Self, AllocError> {
        let mut made = String::with_capacity(alloc, text.len())?;
        made.0.push_str(text);
        Ok(made)
    }

    /// Converts a vector of bytes to a string without copying it. If the bytes aren't valid UTF-8, it returns them
    /// inside the error.
    pub fn from_utf8(bytes: Vec<u8>) -> Result<Self, FromUtf8Error> {
        match string::String::from_utf8(bytes.0) {
            Ok(text) => Ok(String(text)),
            Err(why) => {
                let error = why.utf8_error();
                Err(FromUtf8Error { bytes: Vec(why.into_bytes()), error })
            }
        }
    }

    /// Creates a string from the arguments of a format; [`format!`](crate::format) calls it.
    ///
    /// It returns an error if an allocation fails, or if the formatting of a value returns an error.
    pub fn format(alloc: Global, text: fmt::Arguments<'_>) -> Result<Self, AllocError> {
        let mut made = String::new(alloc);
        made.write_fmt(text)?;
        Ok(made)
    }

    /// Appends the formatted arguments to the end; `write!` calls it.
    ///
    /// It returns an error if an allocation fails, or if the formatting of a value returns an error. The text that was
    /// appended before the error remains.
    pub fn write_fmt(&mut self, text: fmt::Arguments<'_>) -> Result<(), AllocError> {
        Appended(self).write_fmt(text).map_err(|_| AllocError)
    }

    /// Appends a string slice to the end. If the allocation fails, it returns an error and leaves the string unchanged.
    pub fn push_str(&mut self, text: &str) -> Result<(), AllocError> {
        self.0.try_reserve(text.len()).map_err(|_| AllocError)?;
        self.0.push_str(text);
        Ok(())
    }

    /// Appends a character to the end. If the allocation fails, it returns an error and leaves the string unchanged.
    pub fn push(&mut self, c: char) -> Result<(), AllocError> {
        self.push_str(c.encode_utf8(&mut [0; 4]))
    }

    /// Removes the last character and returns it, or returns `None` if the string is empty.
    pub fn pop(&mut self) -> Option<char> {
        self.0.pop()
    }

    /// Shortens the string to `len` bytes, and leaves a string with fewer bytes unchanged. The capacity is unchanged.
    ///
    /// # Panics
    ///
    /// It panics if `len` is less than the length of the string and isn't at the end of a character, as Rust's
    /// `truncate` does.
    pub fn truncate(&mut self, len: usize) {
        self.0.truncate(len)
    }

    /// Removes all characters. The capacity is unchanged.
    pub fn clear(&mut self) {
        self.0.clear()
    }

    /// Returns the number of bytes that the string can have without another allocation.
    pub fn capacity(&self) -> usize {
        self.0.capacity()
    }

    /// Returns the whole string as a string slice.
    pub fn as_str(&self) -> &str {
        &self.0
    }

    /// Converts the string to a vector of its bytes without copying it.
    pub fn into_bytes(self) -> Vec<u8> {
        Vec(self.0.into_bytes())
    }
}

/// A writer that appends the pieces of a format to a string, and returns an error if an allocation fails.
struct Appended<'a>(&'a mut String);

impl Write for Appended<'_> {
    fn write_str(&mut self, text: &str) -> fmt::Result {
        self.0.push_str(text).map_err(|_| fmt::Error)
    }
}

impl fmt::Debug for String {
    fn fmt(&self, f: &mut fmt::Formatter<'_>) -> fmt::Result {
        fmt::Debug::fmt(&self.0, f)
    }
}

impl fmt::Display for String {
    fn fmt(&self, f: &mut fmt::Formatter<'_>) -> fmt::Result {
        fmt::Display::fmt(&self.0, f)
    }
}

impl Deref for String {
    type Target = str;

    fn deref(&self) -> &str {
        &self.0
    }
}

impl From<string::String> for String {
    fn from(text: string::String) -> Self {
        String(text)
    }
}

impl From<String> for string::String {
    fn from(text: String) -> Self {
        text.0
    }
}

/// Makes a formatting error. `write!` to a [`String`] of this crate fails with an `AllocError`,
/// and with this conversion `?` returns it from a function whose result is a `fmt::Result`.
impl From<AllocError> for fmt::Error {
    fn from(_: AllocError) -> Self {
        fmt::Error
    }
}
