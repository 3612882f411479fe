//! The macros of programs and tests. Each takes the runtime, then a semicolon, and then the arguments of Rust's macro of
//! the same name.

/// Panics if a condition is false: `assert!(rt; condition, "message {}", value)`. The message may be left out.
///
/// In Rust's std this macro takes no runtime.
#[macro_export]
macro_rules! assert {
    ($rt:expr; $($what:tt)*) => {{ let _ = &$rt; ::core::assert!($($what)*) }};
}

/// Panics if two values aren't equal, with a message that contains the values: `assert_eq!(rt; a, b)`. A message
/// may follow, as in Rust's macro.
///
/// In Rust's std this macro takes no runtime.
#[macro_export]
macro_rules! assert_eq {
    ($rt:expr; $($what:tt)*) => {{ let _ = &$rt; ::core::assert_eq!($($what)*) }};
}

/// Panics if two values are equal, with a message that contains the values: `assert_ne!(rt; a, b)`. A message may
/// follow, as in Rust's macro.
///
/// In Rust's std this macro takes no runtime.
#[macro_export]
macro_rules! assert_ne {
    ($rt:expr; $($what:tt)*) => {{ let _ = &$rt; ::core::assert_ne!($($what)*) }};
}

/// Panics with a message: `panic!(rt; "message {}", value)`. The message may be left out.
///
/// In Rust's std this macro takes no runtime.
#[macro_export]
macro_rules! panic {
    ($rt:expr $(; $($what:tt)*)?) => {{ let _ = &$rt; ::core::panic!($($($what)*)?) }};
}

/// Panics, since code isn't written yet: `todo!(rt; "message {}", value)`. The message may be left out.
///
/// In Rust's std this macro takes no runtime.
#[macro_export]
macro_rules! todo {
    ($rt:expr $(; $($what:tt)*)?) => {{ let _ = &$rt; ::core::todo!($($($what)*)?) }};
}

/// Panics, since code isn't implemented: `unimplemented!(rt; "message {}", value)`. The message may be left out.
///
/// In Rust's std this macro takes no runtime.
#[macro_export]
macro_rules! unimplemented {
    ($rt:expr $(; $($what:tt)*)?) => {{ let _ = &$rt; ::core::unimplemented!($($($what)*)?) }};
}

/// Prints to standard output: `print!(rt; "{} bytes", len)`. It returns an [`io::Result`](crate::io::Result), which
/// is an error if the write fails.
///
/// Rust's `print!` takes no runtime, writes to a buffer, and panics if the write fails.
#[macro_export]
macro_rules! print {
    ($rt:expr; $($text:tt)+) => { $rt.print(::core::format_args!($($text)+)) };
}

/// Prints to standard output as [`print!`](crate::print) does, and then a line feed:
/// `println!(rt; "{} bytes", len)`. The macro with the runtime alone, `println!(rt)`, prints only the line feed.
#[macro_export]
macro_rules! println {
    ($rt:expr $(;)?) => { $rt.println("") };
    ($rt:expr; $($text:tt)+) => { $rt.println(::core::format_args!($($text)+)) };
}

/// Prints to standard error: `eprint!(rt; "{} bytes", len)`. It returns an [`io::Result`](crate::io::Result), which
/// is an error if the write fails.
///
/// Rust's `eprint!` takes no runtime, and panics if the write fails.
#[macro_export]
macro_rules! eprint {
    ($rt:expr; $($text:tt)+) => { $rt.eprint(::core::format_args!($($text)+)) };
}

/// Prints to standard error as [`eprint!`](crate::eprint) does, and then a line feed:
/// `eprintln!(rt; "{} bytes", len)`. The macro with the runtime alone, `eprintln!(rt)`, prints only the line feed.
#[macro_export]
macro_rules! eprintln {
    ($rt:expr $(;)?) => { $rt.eprintln("") };
    ($rt:expr; $($text:tt)+) => { $rt.eprintln(::core::format_args!($($text)+)) };
}
