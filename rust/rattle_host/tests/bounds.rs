//! The traits and lifetimes that the calls require of a caller's type, and no others. Most of these tests only have to
//! compile.
use rattle_host::alloc::{AllocError, AllocFailed, Global};
use rattle_host::prelude::*;
use rattle_host::traits::*;
use rattle_host::{format, vec};
use std::cell::Cell;
use std::fmt;
use std::marker::PhantomPinned;
use std::ops::{Bound, RangeBounds};

/// A value that is `Copy`. It isn't `Send`, `Sync`, `Unpin`, `UnwindSafe`, `Debug`, `PartialEq` or `'static`.
#[derive(Clone, Copy)]
struct Plain<'a>(&'a Cell<u8>, PhantomPinned);

impl<'a> Plain<'a> {
    fn new(number: &'a Cell<u8>) -> Self {
        Plain(number, PhantomPinned)
    }
}

/// A value that is `Clone`, but not `Copy`.
#[derive(Clone)]
struct Cloned<'a>(Plain<'a>);

/// A value that can be printed, but implements no other trait.
struct Shown<'a>(Plain<'a>);

impl fmt::Debug for Shown<'_> {
    fn fmt(&self, f: &mut fmt::Formatter<'_>) -> fmt::Result {
        self.0.0.get().fmt(f)
    }
}

impl fmt::Display for Shown<'_> {
    fn fmt(&self, f: &mut fmt::Formatter<'_>) -> fmt::Result {
        self.0.0.get().fmt(f)
    }
}

/// A value that implements no trait.
struct Bare<'a>(Plain<'a>);

/// An iterator over two values. It implements no other trait but those that tell its length and return its last value.
struct Two<'a>(Plain<'a>, u8);

impl<'a> Iterator for Two<'a> {
    type Item = Bare<'a>;

    fn next(&mut self) -> Option<Bare<'a>> {
        self.1 = self.1.checked_sub(1)?;
        Some(Bare(self.0))
    }

    fn size_hint(&self) -> (usize, Option<usize>) {
        (self.1.into(), Some(self.1.into()))
    }
}

impl ExactSizeIterator for Two<'_> {}

impl<'a> DoubleEndedIterator for Two<'a> {
    fn next_back(&mut self) -> Option<Bare<'a>> {
        self.next()
    }
}

#[test]
fn a_vector_has_any_values() {
    let number = Cell::new(7);
    let bare = || Bare(Plain::new(&number));
    let mut all = vec![in Global; bare(), bare()].unwrap();
    assert!(all.push(bare()).is_ok() && all.insert(0, bare()).is_ok() && all.reserve(1).is_ok());
    all.push_reserved(bare());
    all.remove(0);
    all.swap_remove(0);
    all.truncate(9);
    assert!(all.pop().is_some_and(|value| value.0.0.get() == 7));
    assert_eq!((&all).into_iter().chain(all.as_slice()).count(), 4);
    for value in &mut all {
        value.0.0.set(8);
    }
    let rusts = std::vec::Vec::from(all);
    let mut all = Vec::from(rusts);
    let slices = [AsRef::<[_]>::as_ref(&all).len(), AsMut::<[_]>::as_mut(&mut all).len(), all.as_mut_slice().len()];
    assert_eq!(slices, [2, 2, 2]);
    assert_eq!((all.capacity() >= 2, all.into_iter().count(), number.get()), (true, 2, 8));
    let mut none = Vec::<Bare<'_>>::with_capacity(Global, 2).unwrap();
    none.clear();
    assert!(Vec::<Bare<'_>>::new(Global).is_empty() && none.is_empty());
}

#[test]
fn a_slice_is_copied_if_its_values_are_copy() {
    let number = Cell::new(7);
    let values = [Plain::new(&number); 2];
    let mut all = Vec::from_slice(Global, &values).unwrap();
    all.extend_from_slice(&values).unwrap();
    let copies = [
        all,
        SliceIn::rattle_to_vec(&values[..], Global).unwrap(),
        RepeatIn::rattle_to_owned(&values[..], Global).unwrap(),
        RepeatIn::rattle_repeat(&values[..], Global, 3).unwrap(),
    ];
    assert_eq!(copies.map(|copy| copy.iter().map(|value| value.0.get()).sum::<u8>()), [28, 14, 14, 42]);
}

#[test]
fn a_value_is_repeated_if_it_is_clone() {
    let number = Cell::new(7);
    let value = Cloned(Plain::new(&number));
    let mut all = Vec::from_elem(Global, value.clone(), 2).unwrap();
    all.resize(3, value.clone()).unwrap();
    let more = vec![in Global; value; 2].unwrap();
    assert_eq!((all.len(), more.len(), all[2].0.0.get()), (3, 2, 7));
}

#[test]
fn a_vector_is_printed_if_its_values_are() {
    let number = Cell::new(7);
    let shown = || Shown(Plain::new(&number));
    assert_eq!(std::format!("{:?}", vec![in Global; shown(), shown()].unwrap()), "[7, 7]");
    assert_eq!(&*format!(in Global; "{} {:?}", shown(), shown()).unwrap(), "7 7");
    assert_eq!(&*shown().rattle_to_string(Global).unwrap(), "7");
}

/// A range that implements no other trait.
struct First<'a>(&'a usize, PhantomPinned);

impl RangeBounds<usize> for First<'_> {
    fn start_bound(&self) -> Bound<&usize> {
        Bound::Unbounded
    }

    fn end_bound(&self) -> Bound<&usize> {
        Bound::Excluded(self.0)
    }
}

#[test]
fn a_range_of_any_type_is_a_slice() {
    let count = 2;
    let mut all = Vec::from_array(Global, [1, 2, 3]).unwrap();
    assert_eq!(all.slice_mut(First(&count, PhantomPinned)), [1, 2]);
}

/// An error that can be made of an `AllocError`, but implements no other trait.
struct Why<'a>(#[expect(dead_code, reason = "it has no other use")] Option<Plain<'a>>);

impl From<AllocError> for Why<'_> {
    fn from(_: AllocError) -> Self {
        Why(None)
    }
}

impl<'a> From<AllocFailed<Bare<'a>>> for Why<'a> {
    fn from(failed: AllocFailed<Bare<'a>>) -> Self {
        Why(Some(failed.value.0))
    }
}

#[test]
fn any_values_are_collected() {
    let number = Cell::new(7);
    let two = || Two(Plain::new(&number), 2);
    let all: Vec<Bare<'_>> = two().rattle_collect(Global).unwrap();
    let tried: Result<Vec<Bare<'_>>, Why<'_>> = two().map(Ok).rattle_try_collect(Global);
    assert!(all.len() == 2 && tried.is_ok_and(|all| all.len() == 2));
    let failed: Result<Vec<Bare<'_>>, Why<'_>> = two().map(|bare| Err(Why(Some(bare.0)))).rattle_try_collect(Global);
    assert!(failed.is_err());
    let failed = || AllocFailed { value: Bare(Plain::new(&number)) };
    assert_eq!((AllocError::from(failed()), std::format!("{}", failed())), (AllocError, AllocError.to_string()));
}

#[test]
fn any_values_are_pairs() {
    let number = Cell::new(7);
    let (two, bare) = (|| Two(Plain::new(&number), 2), || Bare(Plain::new(&number)));
    assert_eq!((two().rattle_zip(two()).count(), two().rattle_zip(two()).len()), (2, 2));
    assert!(two().rattle_zip(two()).next_back().is_some_and(|(one, other)| std::ptr::eq(one.0.0, other.0.0)));
    assert!(Some(bare()).rattle_zip(Some(two())).is_some() && Some(bare()).rattle_zip(None::<Two<'_>>).is_none());
}

/// The values of a chunk have to be `'static`, and nothing else.
#[test]
fn any_values_are_chunks() {
    struct Kept(#[expect(dead_code, reason = "it has no other use")] *const u8, PhantomPinned);
    let kept = || Kept(std::ptr::null(), PhantomPinned);
    let values = [kept(), kept(), kept()];
    let (chunks, rest) = AsChunks::as_chunks::<2>(&values[..]);
    assert_eq!((chunks.count(), rest.len()), (1, 1));
}

mod hosted {
    use super::*;
    use rattle_host::io::{self, BufRead, Read, Write};
    use rattle_host::process::{Abort, ExitCode, Termination};
    use rattle_host::rt::Env;
    use rattle_host::test::{Fail, Outcome};

    /// A runtime that can stop the program and read its arguments, and a reader. It implements no other trait.
    struct Own<'a>(#[expect(dead_code, reason = "it has no other use")] Plain<'a>, &'a [u8]);

    impl Abort for Own<'_> {}
    impl Env for Own<'_> {}

    impl Read for Own<'_> {
        fn read(&mut self, buffer: &mut [u8]) -> io::Result<usize> {
            self.1.read(buffer)
        }
    }

    impl BufRead for Own<'_> {
        fn fill_buf(&mut self) -> io::Result<&[u8]> {
            Ok(self.1)
        }

        fn consume(&mut self, count: usize) {
            self.1 = &self.1[count..];
        }
    }

    #[test]
    fn any_reader_is_read() {
        let number = Cell::new(7);
        let text = b"a\nb\nc\nd".to_vec();
        let own = || Own(Plain::new(&number), &text);
        assert_eq!(own().rattle_lines(Global).map(|line| line.unwrap().len()).sum::<usize>(), 4);
        let (mut bytes, mut text, mut line) = (Vec::new(Global), String::new(Global), String::new(Global));
        assert_eq!(own().rattle_read_to_end(&mut bytes).unwrap(), 7);
        assert_eq!(own().rattle_read_to_string(&mut text).unwrap(), 7);
        assert_eq!(own().rattle_read_line(&mut line).unwrap(), 2);
        assert_eq!(rattle_host::env::args(&own()).unwrap().count(), std::env::args().count());
    }

    /// A value that prints nothing.
    struct Silent<'a>(#[expect(dead_code, reason = "it has no other use")] Plain<'a>);

    impl fmt::Display for Silent<'_> {
        fn fmt(&self, _: &mut fmt::Formatter<'_>) -> fmt::Result {
            Ok(())
        }
    }

    #[test]
    fn any_value_is_printed() {
        rattle_host::test::run(|rt| {
            let number = Cell::new(7);
            let silent = || Silent(Plain::new(&number));
            rt.print(silent())?;
            rt.eprint(silent())?;
            write!(rt.stdout(), "{}", silent())?;
            write!(rt.stderr(), "{}", silent())
        });
    }

    /// Returns the value as a result whose error has the lifetime of `error`.
    fn good<T, E>(value: T, error: E) -> Result<T, E> {
        if size_of_val(&error) > 0 { Ok(value) } else { Err(error) }
    }

    #[test]
    fn any_error_is_reported() {
        let number = Cell::new(7);
        let (bare, shown) = (|| Bare(Plain::new(&number)), || Shown(Plain::new(&number)));
        let own = Own(Plain::new(&number), b"");
        assert_eq!(good(ExitCode::from(3), shown()).report(), ExitCode::from(3));
        assert_eq!(good(bare(), shown()).rattle_expect(&own, "m").0.0.get(), 7);
        assert_eq!(Err::<Shown<'_>, Shown<'_>>(shown()).rattle_expect_err(&own, "m").0.0.get(), 7);
        assert_eq!(Some(bare()).rattle_expect(&own, "m").0.0.get(), 7);
        Some(shown()).filter(|value| value.0.0.get() == 0).rattle_expect_err(&own, "m");
        good((), shown()).judge();
        let _: [Fail; 2] = [Fail::new(shown()), Fail::from(shown())];
        let failed = AllocFailed { value: bare() };
        assert_eq!(io::Error::from(failed).kind(), io::ErrorKind::OutOfMemory);
    }
}
