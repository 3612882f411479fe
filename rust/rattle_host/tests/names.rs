//! The names that the crate re-exports from Rust's std, and those that it doesn't.

/// Each of these names is there, or this module doesn't compile.
#[allow(unused_imports)]
mod taken {
    use rattle_host::cmp::{Eq, Ord, Ordering, PartialEq, PartialOrd, Reverse, max, max_by, min, min_by};
    use rattle_host::convert::{AsMut, AsRef, From, Infallible, Into, TryFrom, TryInto, identity};
    use rattle_host::error::Error;
    use rattle_host::fmt::{Arguments, Debug, Display, Formatter, LowerHex, UpperHex, Write};
    use rattle_host::iter::{
        Chain, Cloned, Copied, Cycle, DoubleEndedIterator, Empty, Enumerate, ExactSizeIterator, Extend, Filter,
        FilterMap, FlatMap, Flatten, FromFn, FromIterator, Fuse, FusedIterator, Inspect, IntoIterator, Iterator, Map,
        MapWhile, Once, OnceWith, Peekable, Product, Repeat, RepeatN, RepeatWith, Rev, Scan, Skip, SkipWhile, StepBy,
        Successors, Sum, Take, TakeWhile, Zip, empty, from_fn, once, once_with, repeat, repeat_n, repeat_with,
        successors, zip,
    };
    use rattle_host::marker::{Copy, PhantomData, PhantomPinned, Send, Sized, Sync, Unpin};
    use rattle_host::mem::{replace, swap, take};
    use rattle_host::net::{IpAddr, Ipv4Addr, Ipv6Addr, SocketAddr, SocketAddrV4, SocketAddrV6};
    use rattle_host::ops::{
        Add, AddAssign, Bound, ControlFlow, Deref, DerefMut, Drop, Fn, FnMut, FnOnce, Index, IndexMut, Not, Range,
        RangeBounds, RangeFrom, RangeFull, RangeInclusive, RangeTo, RangeToInclusive,
    };
    use rattle_host::prelude::{String, Vec};
    use rattle_host::result::Result;
    use rattle_host::slice::{Chunks, ChunksExact, Iter, IterMut, Windows, from_mut, from_ref};
    use rattle_host::str::{Chars, FromStr, Split, Utf8Error, from_utf8};
    use rattle_host::traits::{
        AsChunks, IteratorIn, RepeatIn, SliceIn, StrIn, ToStringIn, ZipIteratorInTurn, ZipOptionInTurn,
    };

    mod hosted {
        use rattle_host::env::{Args, args};
        use rattle_host::io::{
            BufRead, BufReader, BufWriter, Cursor, Empty, Error, ErrorKind, Lines, Read, Result, Seek, SeekFrom, Sink,
            Stderr, Stdin, Stdout, Write, copy, empty, sink,
        };
        use rattle_host::prelude::{AllocGlobal, Eprint, HostRuntime, Input, Print};
        use rattle_host::process::{Abort, ExitCode, Termination};
        use rattle_host::rt::Env;
        use rattle_host::test::{Fail, Outcome, run};
        use rattle_host::traits::{BufReadIn, ExpectOrStop, ReadIn};
    }
}

/// Defines a module with types of these names, and a test that uses them beside everything in a module of the crate. If
/// that module had one of these names too, the name would be ambiguous, and the test wouldn't compile.
macro_rules! not_taken {
    ($test:ident $path:path; $($name:ident)*) => {
        #[deny(ambiguous_glob_imports)]
        mod $test {
            mod others {
                $(#[allow(non_camel_case_types)] pub struct $name;)*
            }
            #[allow(unused_imports)]
            use $path::*;
            use others::*;

            #[test]
            fn no_other_name_is_taken() {
                // The first name is a type or a module, and the second one is a value.
                $(let _: $name = $name;)*
            }
        }
    };
}

// Rattle's module lacks these, or defines them differently.
not_taken! {
    within_mem rattle_host::mem;
    Discriminant ManuallyDrop MaybeUninit align_of align_of_val discriminant drop forget needs_drop size_of size_of_val
    transmute transmute_copy uninitialized zeroed
}

not_taken! {
    within_crate rattle_host;
    Args ExitCode Fail Global HostRuntime String Vec any array borrow boxed cell char chunks clone collections default
    device fs future hash hint hosted iter_in num option path pin ptr rc rust_alloc slices sync task thread time zip
}

not_taken! {
    within_prelude rattle_host::prelude;
    AllocError AllocFailed Args AsChunks BufReadIn Collection ExpectOrStop Fail Global IntoIter IteratorIn Lines ReadIn
    RepeatIn SliceIn StrIn ToStringIn Zip ZipIteratorInTurn ZipOptionInTurn alloc fmt io iter mem rt string vec zip
}

not_taken! {
    within_iter rattle_host::iter;
    Collection IteratorIn ZipIteratorInTurn ZipOptionInTurn skip_back
}

/// The only field that others can read is that of the error which contains a value.
#[test]
fn no_other_field_is_public() {
    let mut fields = Vec::new();
    let folders = ["src", "../rattle_std/src", "../rattle_std/src/vec"].map(|folder| format!("{}/{folder}", env!("CARGO_MANIFEST_DIR")));
    let files = folders.iter().flat_map(|folder| std::fs::read_dir(folder).unwrap());
    for file in files.filter(|file| file.as_ref().is_ok_and(|file| file.path().is_file())) {
        let code = std::fs::read_to_string(file.unwrap().path()).unwrap();
        for line in code.lines().map(str::trim_start) {
            let word = line.strip_prefix("pub ").and_then(|rest| rest.split(' ').next());
            let named = word.is_some_and(|word| word.ends_with(':'));
            if named || line.contains("(pub ") || line.contains(", pub ") || line.contains("{ pub ") {
                fields.push(line.to_owned());
            }
        }
    }
    assert_eq!(fields, ["pub value: T,"]);
}
