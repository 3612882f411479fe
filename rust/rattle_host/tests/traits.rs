//! The traits that the crate's types implement, and those that they don't. Most of these tests only have to compile.
use rattle_host::alloc::{AllocError, AllocFailed, Global};
use rattle_host::iter::Zip;
use rattle_host::prelude::*;
use std::borrow::Borrow;
use std::error::Error;
use std::fmt::{Debug, Display};
use std::hash::Hash;
use std::iter::{Filter, FromFn, FusedIterator};
use std::ops::{Deref, DerefMut};
use std::panic::UnwindSafe;

/// Asserts that types don't implement a trait. It only has to compile: if a type implements it, both implementations of
/// `Lacks` apply to the type, so the compiler can't infer which one is meant.
macro_rules! lack {
    ($bound:path; $($type:ty),*) => {{
        trait Lacks<Which> {
            fn lacks() {}
        }
        struct Has;
        impl<T> Lacks<()> for T {}
        impl<T: $bound> Lacks<Has> for T {}
        $(let _ = <$type as Lacks<_>>::lacks;)*
    }};
}

/// Asserts that types implement traits.
macro_rules! have {
    ($($bound:path),*; $($type:ty),*) => {{
        fn has<T: $($bound +)*>() {}
        $(has::<$type>();)*
    }};
}

type Rusts<T> = std::vec::Vec<T>;
type Text = std::string::String;
type Range = std::ops::Range<u8>;

/// Neither collection is `Clone`, since a clone allocates without taking the allocator.
#[test]
fn no_collection_has_a_call_that_copies_it() {
    lack!(Clone; Vec<u8>, String);
}

/// No collection is made, and none grows, by a trait of Rust whose call can't return an error if an allocation fails.
#[test]
fn no_collection_has_a_call_that_ends_the_program() {
    lack!(Default; Vec<u8>, String);
    lack!(Extend<u8>; Vec<u8>, String);
    lack!(Extend<&'static u8>; Vec<u8>);
    lack!(Extend<char>; String);
    lack!(Extend<&'static str>; String);
    lack!(FromIterator<u8>; Vec<u8>);
    lack!(FromIterator<char>; String);
    lack!(FromIterator<&'static str>; String);
    lack!(From<&'static [u8]>; Vec<u8>);
    lack!(From<[u8; 3]>; Vec<u8>);
    lack!(From<Box<[u8]>>; Vec<u8>);
    lack!(From<&'static str>; Vec<u8>, String);
    lack!(From<char>; String);
    lack!(From<Box<str>>; String);
    lack!(std::str::FromStr; String);
    lack!(std::fmt::Write; String);
}

/// A vector gives its values as a slice, and a string gives its text, which can't be changed where it is.
#[test]
fn a_collection_gives_its_slice_alone() {
    have!(Deref<Target = [u8]>, DerefMut, AsRef<[u8]>, AsMut<[u8]>; Vec<u8>);
    have!(Deref<Target = str>; String);
    lack!(DerefMut; String);
    lack!(AsRef<[u8]>; String);
    lack!(AsRef<str>; String, Vec<u8>);
    lack!(AsMut<str>; String);
    lack!(Borrow<[u8]>; Vec<u8>, String);
    lack!(Borrow<str>; String);
    lack!(PartialEq<str>; String);
    lack!(PartialEq<[u8]>; Vec<u8>);
}

#[test]
fn a_collection_is_printed_compared_and_converted() {
    have!(Debug, Eq, Ord, Hash, Send, Sync, Unpin, UnwindSafe; Vec<u8>, String);
    have!(From<Rusts<u8>>, Into<Rusts<u8>>, IntoIterator<Item = u8>; Vec<u8>);
    have!(Display, From<Text>, Into<Text>; String);
    lack!(Display; Vec<u8>);
    lack!(Copy; Vec<u8>, String);
    lack!(Iterator; Vec<u8>, String);
    lack!(IntoIterator; String);
    // A vector is compared as its values are.
    have!(PartialOrd; Vec<f32>);
    lack!(Eq; Vec<f32>);
    lack!(Hash; Vec<f32>);
    lack!(Debug; Vec<Nothing>);
}

/// A type that implements no trait.
struct Nothing;

/// The allocator isn't made where none was given, and no error is made where nothing failed.
#[test]
fn an_error_is_made_by_a_failure_alone() {
    have!(Debug, Clone, Copy; Global);
    have!(Debug, Display, Error, Clone, Copy, Eq, Send, Sync, Unpin; AllocError);
    have!(Debug, Display, Error; AllocFailed<Nothing>);
    have!(Debug, Eq; rattle_host::string::FromUtf8Error);
    lack!(Default; Global, AllocError, AllocFailed<u8>);
    lack!(From<()>; Global, AllocError);
    lack!(From<std::fmt::Error>; AllocError);
    lack!(Hash; Global, AllocError);
    lack!(PartialOrd; Global, AllocError);
    lack!(PartialEq; Global, AllocFailed<u8>);
    lack!(Display; Global);
    lack!(Error; Global);
    lack!(Clone; AllocFailed<u8>, rattle_host::string::FromUtf8Error);
    lack!(Deref; AllocFailed<u8>, AllocError);
}

/// A zip has a length, and ends for good, only if both of its iterators do.
#[test]
fn no_zip_has_a_trait_that_it_does_not_keep() {
    type Some = Filter<Range, fn(&u8) -> bool>;
    type Unfused = FromFn<fn() -> Option<u8>>;
    have!(Debug, Clone, Iterator, ExactSizeIterator, DoubleEndedIterator, FusedIterator; Zip<Range, Range>);
    lack!(Default; Zip<Range, Range>);
    lack!(PartialEq; Zip<Range, Range>);
    lack!(Copy; Zip<Range, Range>);
    lack!(Debug; Zip<Range, Nothing>, Zip<Nothing, Range>);
    lack!(Clone; Zip<Range, Nothing>, Zip<Nothing, Range>);
    lack!(ExactSizeIterator; Zip<Range, Some>, Zip<Some, Range>);
    lack!(DoubleEndedIterator; Zip<Range, Some>, Zip<Some, Range>);
    lack!(FusedIterator; Zip<Range, Unfused>, Zip<Unfused, Range>);
}

mod hosted {
    use super::*;
    use rattle_host::io::{BufReader, Lines, Read, Stderr, Stdin, Stdout, Write};
    use rattle_host::process::{Abort, ExitCode, Termination};
    use rattle_host::rt::Env;
    use rattle_host::test::{Fail, Outcome};

    /// Only the runtime gives what a program has from outside of it, and it isn't made of nothing.
    #[test]
    fn no_other_value_is_a_runtime() {
        have!(Debug, Clone, Copy, AllocGlobal, Input, Print, Eprint, Env, Abort; HostRuntime);
        // A program may give it to another thread.
        have!(Send, Sync, Unpin, UnwindSafe; HostRuntime);
        have!(Abort; &'static HostRuntime, &'static &'static HostRuntime);
        lack!(Default; HostRuntime, Stdin, Stdout, Stderr);
        lack!(From<()>; HostRuntime, Stdin, Stdout, Stderr);
        lack!(From<Global>; HostRuntime);
        lack!(PartialEq; HostRuntime);
        lack!(AllocGlobal; (), Global, ExitCode, &'static str);
        lack!(Input; (), Global, ExitCode, Stdin, &'static str);
        lack!(Print; (), Global, ExitCode, Stdout, &'static str);
        lack!(Eprint; (), Global, ExitCode, Stderr, &'static str);
        lack!(Env; (), Global, ExitCode, Stdin, &'static str);
        lack!(Abort; (), Global, ExitCode, Stderr, &'static str, &'static ());
    }

    /// If a function of the crate could be called here, each of these calls would be of that function, and not of this
    /// trait's.
    #[test]
    fn no_call_makes_a_runtime() {
        trait Own {
            #[allow(clippy::new_ret_no_self)]
            fn new() -> u8 {
                7
            }
        }
        impl Own for HostRuntime {}
        impl Own for Stdin {}
        impl Own for Stdout {}
        impl Own for Stderr {}
        impl Own for ExitCode {}
        impl Own for Lines<u8> {}
        let made: [u8; 6] =
            [HostRuntime::new(), Stdin::new(), Stdout::new(), Stderr::new(), ExitCode::new(), Lines::<u8>::new()];
        assert_eq!(made, [7; 6]);
    }

    #[test]
    fn a_stream_goes_one_way() {
        have!(Debug, Read; Stdin);
        have!(Debug, Write; Stdout, Stderr);
        have!(Write; Vec<u8>);
        have!(Debug, Iterator; Lines<BufReader<Stdin>>);
        lack!(Write; Stdin, Vec<u16>, String);
        lack!(Read; Stdout, Stderr, Vec<u8>);
        lack!(Clone; Stdin, Stdout, Stderr, Lines<BufReader<Stdin>>);
    }

    #[test]
    fn a_status_is_a_number() {
        have!(Debug, Clone, Copy, Default, Eq, From<u8>, Into<std::process::ExitCode>, Termination; ExitCode);
        have!(Termination; (), Result<(), u8>, Result<ExitCode, u8>);
        lack!(Termination; u8, bool, i32, Option<()>, Result<u8, u8>, Result<(), Nothing>);
        lack!(From<i32>; ExitCode);
        lack!(From<bool>; ExitCode);
        lack!(PartialOrd; ExitCode);
    }

    #[test]
    fn a_test_fails_by_an_error() {
        have!(From<u8>, From<&'static str>, From<AllocError>; Fail);
        have!(Outcome; (), Result<(), Fail>, Result<(), u8>);
        lack!(Outcome; bool, Option<()>, Result<u8, u8>, Result<(), Nothing>);
        lack!(Debug; Fail);
        lack!(From<Nothing>; Fail);
    }
}
