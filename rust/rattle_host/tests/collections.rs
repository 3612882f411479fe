//! Tests of vectors, strings, and the calls that fill them: what they contain, and what they return if an allocation
//! fails.
#[path = "../../tests/memory/refusing.rs"]
mod refusing;

use rattle_host::alloc::{AllocError, AllocFailed, Global};
use rattle_host::{self as std_of_rattle, format, prelude::*, vec};
use rattle_host::traits::*;
use refusing::failing_after;

/// Half of the numbers of bytes that a `usize` can count: one more than an allocation can have.
const HALF: usize = 1 << (usize::BITS - 1);

fn three() -> Vec<u8> {
    Vec::from_array(Global, [1, 2, 3]).unwrap()
}

/// Asserts that a call fails if its first allocation fails. Then it runs the call again, and unwraps the result.
macro_rules! needs_memory {
    ($call:expr) => {{
        let (made, failed) = failing_after(0, || $call);
        assert!(made.is_err() && failed, "{}", stringify!($call));
        $call.unwrap()
    }};
}

/// Asserts that a call allocates nothing, and returns its result.
macro_rules! needs_none {
    ($call:expr) => {{
        let (made, failed) = failing_after(0, || $call);
        assert!(!failed, "{}", stringify!($call));
        made
    }};
}

#[test]
fn a_vector_is_made() {
    let empty: Vec<u8> = needs_none!(Vec::new(Global));
    assert_eq!((empty.len(), empty.capacity()), (0, 0));
    let room: Vec<u8> = needs_memory!(Vec::<u8>::with_capacity(Global, 5));
    assert_eq!((room.len(), room.capacity()), (0, 5));
    let none: Vec<u8> = needs_none!(Vec::with_capacity(Global, 0)).unwrap();
    assert_eq!(none.capacity(), 0);
    assert_eq!(*needs_memory!(Vec::from_array(Global, [1, 2, 3])), [1, 2, 3]);
    assert_eq!(*needs_memory!(Vec::from_elem(Global, 7, 4)), [7; 4]);
    assert_eq!(*needs_memory!(Vec::from_slice(Global, &[4, 5])), [4, 5]);
    assert!(Vec::<u64>::with_capacity(Global, usize::MAX).is_err());
    // Cut at the highest bit, these capacities would be 0 and 9.
    assert!(Vec::<u8>::with_capacity(Global, HALF).is_err() && Vec::<u64>::with_capacity(Global, HALF + 9).is_err());
    assert!(Vec::<u8>::new(Global).reserve(HALF).is_err() && Vec::from_elem(Global, 7_u8, HALF).is_err());
    assert!(Vec::from_elem(Global, 0_u64, usize::MAX).is_err());
}

#[test]
fn a_vector_grows() {
    let mut all = three();
    assert_eq!(all.capacity(), 3);
    let (pushed, failed) = failing_after(0, || all.push(4));
    assert!(failed);
    assert_eq!(pushed.unwrap_err().value, 4);
    assert_eq!(*all, [1, 2, 3]);
    all.push(4).unwrap();
    assert_eq!(*all, [1, 2, 3, 4]);
    let mut all = three();
    let (inserted, failed) = failing_after(0, || all.insert(1, 9));
    assert!(failed);
    assert_eq!(inserted.unwrap_err().value, 9);
    assert_eq!(*all, [1, 2, 3]);
    all.insert(1, 9).unwrap();
    assert_eq!(*all, [1, 9, 2, 3]);
    let mut all = three();
    let (more, failed) = failing_after(0, || all.extend_from_slice(&[4, 5]));
    assert!(failed && more == Err(AllocError));
    assert_eq!(*all, [1, 2, 3]);
    all.extend_from_slice(&[4, 5]).unwrap();
    assert_eq!(*all, [1, 2, 3, 4, 5]);
    let mut all = three();
    let (more, failed) = failing_after(0, || all.resize(9, 7));
    assert!(failed && more == Err(AllocError));
    assert_eq!(*all, [1, 2, 3]);
    all.resize(5, 7).unwrap();
    assert_eq!(*all, [1, 2, 3, 7, 7]);
    all.resize(2, 0).unwrap();
    assert_eq!(*all, [1, 2]);
    // The capacity is greater than the length, and less than the new length.
    let mut all = Vec::with_capacity(Global, 10).unwrap();
    all.resize(5, 1).unwrap();
    for len in [11, 14, 15, 16] {
        assert_eq!(failing_after(0, || all.resize(len, 2)), (Err(AllocError), true));
        assert_eq!(*all, [1; 5]);
    }
    // A character has two bytes, so two of them need four.
    let mut text = String::with_capacity(Global, 2).unwrap();
    assert_eq!(failing_after(0, || text.push_str("\u{df}\u{df}")), (Err(AllocError), true));
    assert_eq!((text.as_str(), text.capacity()), ("", 2));
    let mut all = three();
    let (more, failed) = failing_after(0, || all.reserve(1));
    assert!(failed && more == Err(AllocError));
    all.reserve(100).unwrap();
    assert!(all.capacity() >= 103);
    needs_none!(all.push_reserved(4));
    assert_eq!(*all, [1, 2, 3, 4]);
    // The last value for which capacity is reserved is pushed too.
    let mut one = Vec::with_capacity(Global, 1).unwrap();
    needs_none!(one.push_reserved(7));
    assert_eq!((&*one, one.capacity()), (&[7][..], 1));
}

/// Empty collections that are constants: `new` is a `const fn`.
const NONE: Vec<u8> = Vec::new(Global);
const NO_TEXT: String = String::new(Global);

/// Each allocation reserves more capacity than one call needs, so that many calls need few allocations.
#[test]
fn a_collection_grows_ahead() {
    let (mut pushed, mut extended, mut text, mut formatted) = (NONE, NONE, NO_TEXT, NO_TEXT);
    let mut moves = [0; 4];
    for _ in 0..10_000 {
        let before = [pushed.capacity(), extended.capacity(), text.capacity(), formatted.capacity()];
        pushed.push(7).unwrap();
        extended.extend_from_slice(&[7, 7]).unwrap();
        text.push('a').unwrap();
        formatted.write_fmt(format_args!("{}", 7)).unwrap();
        let after = [pushed.capacity(), extended.capacity(), text.capacity(), formatted.capacity()];
        for (at, count) in moves.iter_mut().enumerate() {
            *count += usize::from(before[at] != after[at]);
        }
    }
    assert!(moves.iter().all(|count| *count < 100), "{moves:?}");
}

/// A copy is made by one allocation, which has as many bytes as the copy.
#[test]
fn a_copy_takes_memory_once() {
    let (text, failed) = failing_after(1, || String::from_str(Global, "a\u{df}").unwrap());
    assert_eq!((&*text, text.capacity(), failed), ("a\u{df}", 3, false));
    let (bytes, failed) = failing_after(1, || Vec::from_slice(Global, b"ab").unwrap());
    assert_eq!((&*bytes, bytes.capacity(), failed), (&b"ab"[..], 2, false));
}

/// A `resize` to the same length, or to a shorter one, allocates nothing.
#[test]
fn a_vector_is_cut_where_no_memory_is() {
    let mut all = three();
    needs_none!(all.resize(3, 9)).unwrap();
    needs_none!(all.resize(2, 9)).unwrap();
    assert_eq!((&*all, all.capacity()), (&[1, 2][..], 3));
}

/// The calls that need no trait of the values have none as a bound: these values are neither `Copy` nor `Send`.
#[test]
fn values_of_a_vector_need_no_trait() {
    let mut values = Vec::from_array(Global, [1, 2].map(std::rc::Rc::new)).unwrap();
    values.reverse();
    let (first, last) = (AsRef::<[_]>::as_ref(&values)[0].clone(), AsMut::<[_]>::as_mut(&mut values)[1].clone());
    assert_eq!((*first, *last, values.as_slice().len()), (2, 1, 2));
    let (chunks, rest) = AsChunks::as_chunks::<2>(values.as_slice());
    assert_eq!((chunks.count(), rest.len()), (1, 0));
}

#[test]
#[should_panic(expected = "unreachable")]
fn a_value_is_pushed_where_memory_is_reserved() {
    three().push_reserved(4);
}

#[test]
fn a_vector_shrinks() {
    let mut all = three();
    assert_eq!((all.pop(), &*all), (Some(3), &[1, 2][..]));
    let mut all = three();
    assert_eq!((all.remove(0), &*all), (1, &[2, 3][..]));
    let mut all = three();
    assert_eq!((all.swap_remove(0), &*all), (1, &[3, 2][..]));
    let mut all = three();
    all.truncate(4);
    assert_eq!(*all, [1, 2, 3]);
    all.truncate(2);
    assert_eq!(*all, [1, 2]);
    all.clear();
    assert_eq!((all.pop(), all.len(), all.capacity()), (None, 0, 3));
}

/// A collection keeps its memory when it becomes shorter, however much that is.
#[test]
fn no_capacity_shrinks() {
    for capacity in [1, 100, 70_001, (1 << 20) + 1, (3 << 20) + 5] {
        let mut all = Vec::from_elem(Global, 7_u8, capacity).unwrap();
        all.truncate(capacity / 2);
        assert_eq!((all.len(), all.capacity()), (capacity / 2, capacity));
        let mut text = String::from_utf8(all).unwrap();
        text.truncate(capacity / 3);
        assert_eq!((text.len(), text.capacity()), (capacity / 3, capacity));
        text.clear();
        assert_eq!((text.len(), text.capacity()), (0, capacity));
        let mut all = text.into_bytes();
        needs_none!(all.resize(capacity, 1)).unwrap();
        all.pop();
        all.clear();
        assert_eq!((all.len(), all.capacity()), (0, capacity));
    }
}

/// The message of the panic in which a call ends, or `None`.
fn panic_of<T>(call: impl FnOnce() -> T + std::panic::UnwindSafe) -> Option<std::string::String> {
    let why = std::panic::catch_unwind(call).err()?;
    Some(why.downcast().map_or_else(|why| why.downcast_ref::<&str>().unwrap().to_string(), |text| *text))
}

#[test]
fn no_index_is_behind_the_end() {
    use std::ops::Bound::{Excluded, Included, Unbounded};
    assert!(panic_of(|| three().insert(4, 7)).unwrap().starts_with("insertion index"));
    for index in [3, 4, usize::MAX] {
        assert!(panic_of(|| three().remove(index)).unwrap().starts_with("removal index"));
        assert!(panic_of(|| three().swap_remove(index)).unwrap().starts_with("swap_remove index"));
    }
    for (start, end) in [(2, 1), (3, 2), (0, 4), (4, 4), (0, usize::MAX)] {
        assert!(panic_of(|| three().slice_mut(start..end).len()).is_some(), "{start} {end}");
    }
    assert!(panic_of(|| three().slice_mut(..=3).len()).is_some() && panic_of(|| three().slice_mut(4..).len()).is_some());
    assert!(panic_of(|| three().slice_mut(..=usize::MAX).len()).is_some());
    assert!(panic_of(|| three().slice_mut((Excluded(3), Unbounded)).len()).is_some());
    assert_eq!((three().slice_mut(3..), three().slice_mut((Excluded(1), Included(2)))), (&mut [][..], &mut [3][..]));
}

/// A value that isn't stored because an allocation fails is dropped, except by the calls that return it.
#[test]
fn what_is_not_stored_is_dropped() {
    use std::rc::Rc;
    let value = Rc::new(7);
    let (all, failed) = failing_after(0, || Vec::from_array(Global, [Rc::clone(&value), Rc::clone(&value)]));
    assert!(failed && all.is_err() && Rc::strong_count(&value) == 1);
    let mut all = Vec::from_array(Global, [Rc::clone(&value)]).unwrap();
    let why = failing_after(0, || all.push(Rc::clone(&value))).0.unwrap_err();
    assert_eq!((Rc::strong_count(&value), Rc::ptr_eq(&why.value, &value)), (3, true));
    assert_eq!((AllocError::from(why), Rc::strong_count(&value)), (AllocError, 2));
    {
        let why = AllocFailed { value: Rc::clone(&value) };
        assert_eq!((rattle_host::io::Error::from(why).raw_os_error(), Rc::strong_count(&value)), (None, 2));
    }
    drop(all);
    // The first allocation holds four values, and the second, for the fifth, fails.
    let mut items = std::iter::repeat_with(|| Rc::clone(&value)).take(9);
    let (all, failed) = failing_after(1, || items.by_ref().rattle_collect::<Vec<_>>(Global));
    assert_eq!((all.unwrap_err(), failed, items.len(), Rc::strong_count(&value)), (AllocError, true, 4, 1));
    let mut items = std::iter::repeat_with(|| Ok(Rc::clone(&value))).take(9);
    let (all, failed) = failing_after(1, || items.by_ref().rattle_try_collect::<_, AllocError, Vec<_>>(Global));
    assert_eq!((all.unwrap_err(), failed, items.len(), Rc::strong_count(&value)), (AllocError, true, 4, 1));
    assert!(needs_none!((0..0).rattle_collect::<Vec<u8>>(Global)).unwrap().is_empty());
    assert!(needs_none!("".chars().rattle_collect::<String>(Global)).unwrap().is_empty());
}

/// A value whose formatting fails after its first piece.
struct Fails;

impl std::fmt::Display for Fails {
    fn fmt(&self, f: &mut std::fmt::Formatter<'_>) -> std::fmt::Result {
        f.write_str("begun")?;
        Err(std::fmt::Error)
    }
}

/// A value that prints whether it is formatted by `{:#}`.
struct Alternate;

impl std::fmt::Display for Alternate {
    fn fmt(&self, f: &mut std::fmt::Formatter<'_>) -> std::fmt::Result {
        write!(f, "{}", f.alternate())
    }
}

#[test]
fn a_value_that_is_not_formatted_is_an_error() {
    assert_eq!(format!(in Global; "a{Fails}b"), Err(AllocError));
    assert_eq!(String::format(Global, format_args!("{Fails}")), Err(AllocError));
    assert_eq!(Fails.rattle_to_string(Global), Err(AllocError));
    let mut text = String::from_str(Global, "<").unwrap();
    assert_eq!((write!(text, "a{Fails}b"), &*text), (Err(AllocError), "<abegun"));
    // What was appended before the error also remains in a string that was empty.
    let mut text = NO_TEXT;
    assert_eq!((write!(text, "a{Fails}b"), &*text), (Err(AllocError), "abegun"));
}

/// At each index of vectors of several lengths, a call does and returns what the call of Rust's `Vec` does and returns.
#[test]
fn each_index_is_the_one_that_was_asked_for() {
    for len in 0..12_usize {
        let rust = std::vec::Vec::from_iter(0..len as u8);
        for index in 0..=len {
            let (mut ours, mut theirs) = (Vec::from_slice(Global, &rust).unwrap(), rust.clone());
            ours.insert(index, 99).unwrap();
            theirs.insert(index, 99);
            assert_eq!(*ours, *theirs);
            ours.truncate(index);
            theirs.truncate(index);
            assert_eq!(*ours, *theirs);
            let mut ours = Vec::from_slice(Global, &rust).unwrap();
            let mut theirs = rust.clone();
            for end in index..=len {
                use std::ops::Bound::{Excluded, Included, Unbounded};
                assert_eq!(ours.slice_mut(index..end), &mut theirs[index..end]);
                assert_eq!(ours.slice_mut((Unbounded, Excluded(end))), &mut theirs[..end]);
                assert_eq!(ours.slice_mut((Included(index), Unbounded)), &mut theirs[index..]);
                if index < end {
                    let range = (Excluded(index), Excluded(end));
                    assert_eq!(ours.slice_mut(range), &mut theirs[index + 1..end]);
                }
            }
            assert_eq!(ours.slice_mut(..), &mut theirs[..]);
            if index == len {
                continue;
            }
            assert_eq!((ours.remove(index), &*ours), (theirs.remove(index), &*theirs));
            let (mut ours, mut theirs) = (Vec::from_slice(Global, &rust).unwrap(), rust.clone());
            assert_eq!((ours.swap_remove(index), &*ours), (theirs.swap_remove(index), &*theirs));
        }
    }
}

/// Lengths of more than 16 bits, some of them powers of two and the numbers after them.
const LONG: [usize; 6] = [1 << 16, (1 << 16) + 1, 100_000, 1 << 17, (1 << 20) + 1, (1 << 22) + 1];

/// A long vector is made and changed as Rust's `Vec` is.
#[test]
fn long_vectors_do_what_those_of_rust_do() {
    for len in LONG {
        let mut theirs = std::vec::Vec::from_iter((0..len as u32).map(|n| n.wrapping_mul(0x9e37_79b1)));
        let mut ours = Vec::from_slice(Global, &theirs).unwrap();
        assert!(*ours == *theirs && *SliceIn::rattle_to_vec(&theirs[..], Global).unwrap() == *theirs);
        assert!(*RepeatIn::rattle_to_owned(&theirs[..], Global).unwrap() == *theirs);
        assert!(*Vec::from_elem(Global, 7_u8, len).unwrap() == *std::vec![7; len]);
        for index in [len - 1, len / 2, 65_536.min(len - 3)] {
            assert_eq!(ours.swap_remove(index), theirs.swap_remove(index));
            ours.insert(index, 5).unwrap();
            theirs.insert(index, 5);
            assert_eq!(ours.remove(index - 1), theirs.remove(index - 1));
            assert!(*ours == *theirs && ours.slice_mut(index..) == &theirs[index..], "{len} {index}");
            ours.push(6).unwrap();
            theirs.push(6);
        }
        for cut in [len, len - 3, len / 2 + 1] {
            ours.truncate(cut);
            theirs.truncate(cut);
            assert!(*ours == *theirs, "{len} {cut}");
        }
        ours.resize(len + 1, 9).unwrap();
        theirs.resize(len + 1, 9);
        assert!(*ours == *theirs, "{len}");
    }
}

/// `truncate` to a length above that of the collection leaves it unchanged, whichever bits the length has. Values of size
/// 0 need no memory, so `reserve` of any number of them succeeds.
#[test]
fn no_bit_of_a_length_is_lost() {
    for bit in 2..usize::BITS {
        for len in [1_usize << bit, (1 << bit) + 1] {
            let (mut all, mut text) = (three(), String::from_str(Global, "abc").unwrap());
            all.truncate(len);
            text.truncate(len);
            assert_eq!((&*all, &*text), (&[1, 2, 3][..], "abc"));
            let mut none = Vec::<()>::new(Global);
            assert!(needs_none!(none.reserve(len)).is_ok() && none.is_empty());
        }
    }
    assert!(needs_none!(Vec::<()>::new(Global).reserve(usize::MAX)).is_ok());
}

/// The last copy of a value is the value itself, so a call clones the value as often as the call of Rust's `Vec` does.
#[test]
fn a_value_is_cloned_as_often_as_in_rust() {
    use std::{cell::Cell, rc::Rc};
    struct Counted(Rc<Cell<usize>>);
    impl Clone for Counted {
        fn clone(&self) -> Self {
            self.0.set(self.0.get() + 1);
            Counted(Rc::clone(&self.0))
        }
    }
    for count in 0..5 {
        let clones = Rc::new(Cell::new(0));
        let mut all = Vec::from_elem(Global, Counted(Rc::clone(&clones)), count).unwrap();
        assert_eq!((all.len(), clones.take()), (count, count.saturating_sub(1)));
        all.resize(count + 3, Counted(Rc::clone(&clones))).unwrap();
        assert_eq!((all.len(), clones.take()), (count + 3, 2));
        all.resize(1, Counted(Rc::clone(&clones))).unwrap();
        assert_eq!((all.len(), clones.take(), Rc::strong_count(&clones)), (1, 0, 2));
    }
}

/// Vectors and strings compare and hash as slices and string slices do.
#[test]
fn collections_are_ordered_and_hashed_as_their_slices() {
    use std::hash::{BuildHasher, BuildHasherDefault, DefaultHasher};
    let hasher = BuildHasherDefault::<DefaultHasher>::new();
    let texts = ["", "a", "ab", "b", "ba", "\u{df}"];
    for one in texts {
        for other in texts {
            let text = |text: &str| String::from_str(Global, text).unwrap();
            let bytes = |text: &str| Vec::from_slice(Global, text.as_bytes()).unwrap();
            assert_eq!(text(one).cmp(&text(other)), one.cmp(other));
            assert_eq!(text(one).partial_cmp(&text(other)), one.partial_cmp(other));
            assert_eq!(bytes(one).cmp(&bytes(other)), one.as_bytes().cmp(other.as_bytes()));
            assert_eq!(bytes(one).partial_cmp(&bytes(other)), one.as_bytes().partial_cmp(other.as_bytes()));
            assert_eq!(text(one) == text(other), one == other);
            assert_eq!(bytes(one) == bytes(other), one == other);
        }
        assert_eq!(hasher.hash_one(String::from_str(Global, one).unwrap()), hasher.hash_one(one));
        assert_eq!(hasher.hash_one(Vec::from_slice(Global, one.as_bytes()).unwrap()), hasher.hash_one(one.as_bytes()));
    }
}

/// A conversion keeps the address of the memory and the capacity.
#[test]
fn a_conversion_takes_no_memory() {
    let mut rust = std::vec::Vec::with_capacity(9);
    rust.extend(b"ab");
    let at = rust.as_ptr();
    let ours = needs_none!(Vec::from(rust));
    let text = needs_none!(String::from_utf8(ours)).unwrap();
    let rust = needs_none!(std::string::String::from(text));
    assert_eq!((rust.as_ptr(), rust.capacity()), (at, 9));
    let text = needs_none!(String::from(rust));
    let mut bytes = needs_none!(text.into_bytes());
    assert_eq!((bytes.as_ptr(), bytes.capacity(), &*bytes), (at, 9, &b"ab"[..]));
    bytes.push(0xff).unwrap();
    let why = needs_none!(String::from_utf8(bytes)).unwrap_err();
    let bytes = needs_none!(why.into_bytes());
    let rust = needs_none!(std::vec::Vec::from(bytes));
    assert_eq!((rust.as_ptr(), rust.capacity(), &*rust), (at, 9, &b"ab\xff"[..]));
    let none: String = needs_none!(String::format(Global, format_args!("{}", ""))).unwrap();
    assert_eq!(none.capacity(), 0);
    assert_eq!(needs_none!("".rattle_to_string(Global)).unwrap().capacity(), 0);
}

/// Errors of other bytes aren't equal, and neither are errors at other places.
#[test]
fn errors_of_text_are_compared_whole() {
    let why = |bytes: &[u8]| String::from_utf8(Vec::from_slice(Global, bytes).unwrap()).unwrap_err();
    let all = [[0xff, 1].as_slice(), &[0xff, 2], &[1, 0xff], &[0xff], &[0xff, 1, 1], &[0xc3]];
    for (at, one) in all.iter().enumerate() {
        for (place, two) in all.iter().enumerate() {
            assert_eq!(why(one) == why(two), at == place, "{one:?} {two:?}");
        }
    }
}

/// A place within a character is refused, and the string is as it was.
#[test]
fn a_text_is_cut_between_characters_alone() {
    for text in ["é", "€", "\u{10ffff}", "aé", "aa€b"] {
        for len in 0..=text.len() + 2 {
            let mut cut = String::from_str(Global, text).unwrap();
            let done = std::panic::catch_unwind(std::panic::AssertUnwindSafe(|| cut.truncate(len)));
            let wanted = if len >= text.len() { Some(text) } else { text.get(..len) };
            assert_eq!(done.is_ok(), wanted.is_some(), "{text} {len}");
            assert_eq!(cut.as_str(), wanted.unwrap_or(text));
        }
    }
}

/// A string is printed with each flag as Rust's is.
#[test]
fn a_string_is_printed_with_flags() {
    for text in ["", "a", "aé€b", "quote \" and \n"] {
        let (ours, rust) = (String::from_str(Global, text).unwrap(), text);
        assert_eq!(std::format!("{ours:.0} {ours:.2} {ours:.9}"), std::format!("{rust:.0} {rust:.2} {rust:.9}"));
        assert_eq!(std::format!("{ours:>6.3}|{ours:*^9}|{ours:<5}"), std::format!("{rust:>6.3}|{rust:*^9}|{rust:<5}"));
        assert_eq!(std::format!("{ours:?} {ours:#?} {ours:>9?}"), std::format!("{rust:?} {rust:#?} {rust:>9?}"));
    }
}

/// The longer iterator loses as many items as it has more, however many these are.
#[test]
fn a_zip_ends_with_its_last_pair_whatever_follows() {
    for more in (0..600).chain([65_535, 65_536, 70_000]) {
        assert_eq!((0..3).rattle_zip(0..3 + more).next_back(), Some((2, 2)), "{more}");
        assert_eq!((0..3 + more).rattle_zip(0..3).next_back(), Some((2, 2)), "{more}");
    }
}

/// A vector of values of size 0 needs no memory, however many values it has.
#[test]
fn values_with_no_size_are_counted() {
    let mut all = needs_none!(Vec::<()>::with_capacity(Global, usize::MAX)).unwrap();
    for len in 1..4 {
        needs_none!(all.push(())).unwrap();
        assert_eq!(all.len(), len);
    }
    needs_none!(all.resize(70_000, ())).unwrap();
    assert_eq!((all.len(), all.pop(), all.len()), (70_000, Some(()), 69_999));
    assert_eq!(needs_none!(RepeatIn::rattle_repeat(&[(); 3][..], Global, 4)).unwrap().len(), 12);
    // One value more than a vector can have.
    assert!(needs_none!(RepeatIn::rattle_repeat(&[(); 2][..], Global, usize::MAX)).is_err());
}

/// Characters of each width in UTF-8, those at the bounds of each width, and characters that are often ignored.
#[test]
fn each_character_is_kept() {
    let mut text = NO_TEXT;
    let all = ['\0', '\u{1}', '\n', '\u{7f}', '\u{80}', '\u{7ff}', '\u{800}', '\u{d7ff}', '\u{e000}', '\u{fdd0}', '\u{feff}']
        .into_iter()
        .chain('\u{fff0}'..='\u{1000f}')
        .chain(['\u{10ffff}'])
        .chain(('\0'..=char::MAX).step_by(61));
    let rust: std::string::String = all.clone().collect();
    for c in all.clone() {
        text.push(c).unwrap();
    }
    assert!(text.as_str() == rust);
    assert!(all.rattle_collect::<String>(Global).unwrap().as_str() == rust);
    assert!(String::format(Global, format_args!("{rust}")).unwrap().as_str() == rust);
    assert!(rust.rattle_to_string(Global).unwrap().as_str() == rust && rust.rattle_to_owned(Global).unwrap().as_str() == rust);
    let mut literal = NO_TEXT;
    literal.write_fmt(format_args!("a\0 \n\0")).unwrap();
    assert_eq!(&*literal, "a\0 \n\0");
    for c in rust.chars().rev() {
        assert_eq!(text.pop(), Some(c));
    }
    assert_eq!(text.pop(), None);
}

#[test]
#[should_panic]
fn no_text_is_cut_within_a_character() {
    String::from_str(Global, "a\u{df}").unwrap().truncate(2);
}

/// A type that implements no trait, and contains a borrow.
struct Bare<'a>(#[expect(dead_code, reason = "it has no other use")] std::rc::Rc<std::cell::Cell<&'a str>>);

/// The compiler checks which methods a type has, and that the values need no trait for them.
#[test]
fn each_bound_is_as_it_was() {
    fn error<T: std::error::Error>(_: &T) {}
    fn plain<T: Clone + Copy + PartialEq + Eq + std::fmt::Debug>() {}
    fn ordered<T: Ord + std::hash::Hash + std::fmt::Debug>() {}
    fn shared<T: Send + Sync + Unpin>() {}
    plain::<AllocError>();
    fn equal<T: Eq>(_: &T) {}
    equal(&String::from_utf8(Vec::from_array(Global, [0xff]).unwrap()).unwrap_err());
    ordered::<Vec<u8>>();
    ordered::<String>();
    shared::<Vec<u8>>();
    shared::<String>();
    shared::<AllocFailed<u8>>();
    let name = std::string::String::from("a");
    let bare = || Bare(std::rc::Rc::new(std::cell::Cell::new(name.as_str())));
    let failed = AllocFailed { value: bare() };
    error(&failed);
    assert_eq!(std::format!("{failed:?}"), "AllocFailed { .. }");
    assert_eq!(AllocError::from(failed), AllocError);
    let mut all = vec![in Global; bare(),].unwrap();
    all.push(bare()).unwrap();
    all.insert(0, bare()).unwrap();
    all.reserve(1).unwrap();
    all.push_reserved(bare());
    all.remove(0);
    all.swap_remove(0);
    assert_eq!((all.len(), all.as_slice().len(), all.slice_mut(1..).len()), (2, 2, 1));
    let again: Vec<Bare<'_>> = all.into_iter().rattle_collect(Global).unwrap();
    let again: std::result::Result<Vec<_>, AllocError> = again.into_iter().map(Ok).rattle_try_collect(Global);
    let pairs: rattle_host::iter::Zip<_, _> = again.unwrap().into_iter().rattle_zip([bare()]);
    assert_eq!(pairs.count(), 1);
    let copied = (0..3).rattle_zip(4..6);
    assert_eq!(copied.clone().count(), copied.count());
    let shown: &dyn std::fmt::Display = &7;
    assert_eq!(&*ToStringIn::rattle_to_string(shown, Global).unwrap(), "7");
    assert_eq!(&*ToStringIn::rattle_to_string("a", Global).unwrap(), "a");
    assert_eq!(&*Alternate.rattle_to_string(Global).unwrap(), "false");
    let _: Option<rattle_host::net::Ipv4Addr> = None;
}

/// A macro accepts what Rust's macro accepts: a comma or a semicolon at the end, and values without `Debug`.
#[test]
fn the_macros_take_what_those_of_rust_take() {
    #[derive(PartialEq)]
    struct Unprinted(u8);
    rattle_host::prove_eq!(Unprinted(1), Unprinted(1));
    rattle_host::prove_ne!(Unprinted(1), Unprinted(2));
    let none: Vec<Unprinted> = vec![in Global;].unwrap();
    assert!(none.is_empty());
    assert_eq!(*vec![in Global; 1, 2,].unwrap(), [1, 2]);
    assert_eq!(&*format!(in Global; "{}{b}", 1, b = 2,).unwrap(), "12");
}

#[test]
fn two_options_are_a_pair() {
    assert_eq!(Some(1).rattle_zip(Some('a')), Some((1, 'a')));
    assert_eq!((Some(1).rattle_zip(None::<u8>), None::<u8>.rattle_zip(Some(1))), (None, None));
}

/// `next` is called on the first iterator before the second, and not on the second after the end of the first.
#[test]
fn a_zip_asks_in_turn() {
    for (first, second, wanted) in [(2, 3, &[0, 10, 1, 11, 2][..]), (3, 2, &[0, 10, 1, 11, 2, 12])] {
        let asked = std::cell::RefCell::new(std::vec::Vec::new());
        let counted = |from: usize, count: usize| {
            let mut at = 0;
            let asked = &asked;
            std::iter::from_fn(move || {
                asked.borrow_mut().push(from + at);
                at += 1;
                (at <= count).then_some(at)
            })
        };
        assert_eq!(counted(0, first).rattle_zip(counted(10, second)).count(), 2);
        assert_eq!(asked.take(), wanted);
    }
}

/// A call that skips pairs asks both iterators for each pair that it skips, in turn.
#[test]
fn a_zip_skips_in_turn() {
    for (first, second, wanted) in [(3, 5, (1, 11)), (5, 3, (1, 11)), (4, 4, (2, 12))] {
        let asked = std::cell::RefCell::new(std::vec::Vec::new());
        let noted = |n: &u8| asked.borrow_mut().push(*n);
        let pairs = || (0..first).inspect(noted).rattle_zip((10..10 + second).inspect(noted));
        assert_eq!(pairs().nth(1), Some((1, 11)));
        assert_eq!(asked.take(), [0, 10, 1, 11]);
        let mut all = pairs();
        assert_eq!((all.nth(9), all.next()), (None, None));
        assert_eq!(pairs().rev().nth(1), Some(wanted));
        assert_eq!(pairs().rev().nth(9), None);
    }
    let asked = std::cell::RefCell::new(std::vec::Vec::new());
    let noted = |n: &u8| asked.borrow_mut().push(*n);
    (0..3).inspect(noted).rattle_zip((10..12).inspect(noted)).rev().nth(1).unwrap();
    assert_eq!(asked.take(), [2, 1, 11, 0, 10]);
}

/// The first iterator is dropped, and printed, before the second.
#[test]
fn a_zip_ends_in_turn() {
    struct Noted<'a>(u8, &'a std::cell::RefCell<std::vec::Vec<u8>>);
    impl Iterator for Noted<'_> {
        type Item = u8;
        fn next(&mut self) -> Option<u8> {
            None
        }
    }
    impl Drop for Noted<'_> {
        fn drop(&mut self) {
            self.1.borrow_mut().push(self.0);
        }
    }
    let dropped = std::cell::RefCell::new(std::vec::Vec::new());
    drop(Noted(1, &dropped).rattle_zip(Noted(2, &dropped)));
    assert_eq!(dropped.take(), [1, 2]);
    assert_eq!(std::format!("{:?}", (0..1).rattle_zip(2..3)), "Zip { first: 0..1, second: 2..3 }");
}

/// The size hint of an iterator may be wrong: memory is allocated for the items that the iterator returns.
#[test]
fn no_memory_is_taken_for_items_that_do_not_come() {
    #[derive(Debug, PartialEq)]
    enum Why {
        Memory,
        Third,
    }
    impl From<AllocError> for Why {
        fn from(_: AllocError) -> Why {
            Why::Memory
        }
    }
    let endless = (0..usize::MAX).map(|n| if n < 3 { Ok(n) } else { Err(Why::Third) });
    assert_eq!(endless.size_hint().0, usize::MAX);
    assert_eq!(endless.rattle_try_collect::<_, Why, Vec<usize>>(Global), Err(Why::Third));
    struct Few(u8);
    impl Iterator for Few {
        type Item = u8;
        fn next(&mut self) -> Option<u8> {
            self.0 = self.0.checked_sub(1)?;
            Some(self.0)
        }
        fn size_hint(&self) -> (usize, Option<usize>) {
            (usize::MAX, None)
        }
    }
    assert_eq!(*Few(3).rattle_collect::<Vec<u8>>(Global).unwrap(), [2, 1, 0]);
}

#[test]
fn a_vector_is_a_slice() {
    let mut all = three();
    assert_eq!((all.as_slice(), all.as_ref()), (&[1, 2, 3][..], &[1, 2, 3][..]));
    all.as_mut_slice()[0] = 4;
    all.as_mut()[1] = 5;
    all.slice_mut(2..)[0] = 6;
    assert_eq!((all.slice_mut(1..2), 3), (&mut [5][..], 3));
    assert_eq!(all.slice_mut(..=0), [4]);
    all.reverse();
    assert_eq!(*all, [6, 5, 4]);
    for value in &mut all {
        *value += 1;
    }
    assert_eq!((&all).into_iter().copied().collect::<std::vec::Vec<u8>>(), [7, 6, 5]);
    assert_eq!(std::format!("{all:?} {all:02x?}"), "[7, 6, 5] [07, 06, 05]");
    let long = std::vec::Vec::from_iter(0..300);
    let ours = Vec::from(long.clone());
    assert_eq!(std::format!("{ours:?} {ours:#?}"), std::format!("{long:?} {long:#?}"));
    assert!(all > three() && all != three() && three() == three());
    assert_eq!(std::vec::Vec::from(three()), [1, 2, 3]);
    assert_eq!(*Vec::from(std::vec![8]), [8]);
    assert_eq!(three().into_iter().collect::<std::vec::Vec<_>>(), [1, 2, 3]);
}

#[test]
fn the_macros_make_vectors_and_strings() {
    let none: Vec<u8> = needs_none!(vec![in Global]).unwrap();
    assert!(none.is_empty());
    assert_eq!(*needs_memory!(vec![in Global; 1, 2, 3]), [1, 2, 3]);
    assert_eq!(*needs_memory!(vec![in Global; 7; 3]), [7, 7, 7]);
    let name = "b";
    assert_eq!(&*needs_memory!(format!(in Global; "a{name}{}", 1)), "ab1");
}

#[test]
fn conditions_that_were_proved_are_tested_in_debug_alone() {
    rattle_host::prove!(true, "message");
    rattle_host::prove_eq!(1, 1);
    rattle_host::prove_ne!(1, 2);
    // Without debug assertions the conditions and the values aren't evaluated.
    let count = std::cell::Cell::new(0);
    let next = || count.replace(count.get() + 1);
    rattle_host::prove!(next() == 0);
    rattle_host::prove_eq!(next(), 1);
    rattle_host::prove_ne!(next(), 9);
    assert_eq!(count.get(), if cfg!(debug_assertions) { 3 } else { 0 });
    let tried = |call: fn()| std::panic::catch_unwind(call).is_err();
    assert_eq!(tried(|| rattle_host::prove!(1 > 2)), cfg!(debug_assertions));
    assert_eq!(tried(|| rattle_host::prove_eq!(1, 2)), cfg!(debug_assertions));
    assert_eq!(tried(|| rattle_host::prove_ne!(2, 2)), cfg!(debug_assertions));
}

#[test]
fn a_string_is_made_and_grows() {
    let empty = needs_none!(String::new(Global));
    assert_eq!((&*empty, empty.capacity()), ("", 0));
    let room = needs_memory!(String::with_capacity(Global, 5));
    assert_eq!((&*room, room.capacity()), ("", 5));
    assert!(String::with_capacity(Global, usize::MAX).is_err() && String::with_capacity(Global, HALF).is_err());
    let mut text = needs_memory!(String::from_str(Global, "aß"));
    assert_eq!((text.as_str(), text.capacity()), ("aß", 3));
    let (pushed, failed) = failing_after(0, || text.push_str("bc"));
    assert!(failed && pushed == Err(AllocError));
    let (pushed, failed) = failing_after(0, || text.push('ß'));
    assert!(failed && pushed == Err(AllocError));
    assert_eq!(&*text, "aß");
    text.push_str("bc").unwrap();
    text.push('ß').unwrap();
    assert_eq!(&*text, "aßbcß");
    text.push('\u{10ffff}').unwrap();
    assert_eq!((text.pop(), &*text), (Some('\u{10ffff}'), "aßbcß"));
    assert_eq!((text.pop(), text.pop(), &*text), (Some('ß'), Some('c'), "aßb"));
    text.truncate(9);
    text.truncate(3);
    assert_eq!(&*text, "aß");
    assert_eq!(*text.into_bytes(), [b'a', 0xc3, 0x9f]);
    let mut text = String::from_str(Global, "ab").unwrap();
    text.clear();
    assert_eq!((&*text, text.capacity()), ("", 2));
}

#[test]
fn a_string_has_each_character_of_its_text() {
    for end in ['\0', '\t', '\n', '\r', ' ', '\u{7f}', '\u{a0}', '\u{feff}', '\u{10ffff}'] {
        let text = format!(in Global; "{end}a{end}").unwrap();
        let mut made = needs_memory!(String::from_str(Global, &text));
        assert_eq!(&*made, &*text);
        made.push_str(&text).unwrap();
        assert_eq!(made.len(), 2 * text.len());
    }
}

#[test]
fn a_string_is_formatted() {
    let mut text = String::from_str(Global, "a").unwrap();
    let (written, failed) = failing_after(0, || text.write_fmt(format_args!("{}-{}", 1, 2)));
    assert!(failed && written == Err(AllocError));
    assert_eq!(&*text, "a");
    // The text that was appended before the error remains.
    let long = "x".repeat(100);
    let (written, failed) = failing_after(1, || text.write_fmt(format_args!("{}{long}", 1)));
    assert!(failed && written == Err(AllocError));
    assert_eq!(&*text, "a1");
    assert_eq!(long.repeat(700).rattle_to_string(Global).unwrap().len(), 70_000);
    let mut text = String::from_str(Global, "a").unwrap();
    text.write_fmt(format_args!("{}-{}", 1, 2)).unwrap();
    assert_eq!(&*text, "a1-2");
    assert_eq!(&*needs_memory!(String::format(Global, format_args!("{:3}", 7))), "  7");
    assert_eq!(&*needs_memory!(12.rattle_to_string(Global)), "12");
    assert_eq!(std::format!("{text} {text:?} {text:6}|"), "a1-2 \"a1-2\" a1-2  |");
    assert!(text > String::from_str(Global, "a").unwrap());
    assert_eq!(std::string::String::from(text), "a1-2");
    assert_eq!(&*String::from(std::string::String::from("x")), "x");
}

#[test]
fn bytes_become_a_string_where_they_are_utf_8() {
    let good = Vec::from_slice(Global, "aß".as_bytes()).unwrap();
    assert_eq!(&*String::from_utf8(good).unwrap(), "aß");
    let why = String::from_utf8(Vec::from_array(Global, [b'a', 0xff]).unwrap()).unwrap_err();
    assert_eq!(why.utf8_error().valid_up_to(), 1);
    assert_eq!(*why.into_bytes(), [b'a', 0xff]);
}

/// If bytes aren't UTF-8, the error has all of them, and says what the error of Rust's `String` says.
#[test]
fn bytes_that_are_no_text_are_given_back() {
    let bytes = [b'a', 0xc3, 0x9f, 0xff, 0xf0];
    for at in 0..5_usize.pow(4) {
        let some = [0, 1, 2, 3].map(|place| bytes[at / 5_usize.pow(place) % 5]);
        match (String::from_utf8(Vec::from_array(Global, some).unwrap()), std::string::String::from_utf8(some.to_vec())) {
            (Ok(ours), Ok(theirs)) => assert_eq!(ours.as_str(), theirs),
            (Err(ours), Err(theirs)) => {
                assert_eq!(ours.utf8_error(), theirs.utf8_error());
                assert_eq!(*ours.into_bytes(), some);
            }
            _ => panic!("{some:x?}"),
        }
    }
}

#[test]
fn slices_and_texts_are_copied() {
    assert_eq!(*needs_memory!(SliceIn::rattle_to_vec(&[1, 2][..], Global)), [1, 2]);
    assert_eq!(*needs_memory!(RepeatIn::rattle_to_owned(&[1, 2][..], Global)), [1, 2]);
    assert_eq!(*needs_memory!(RepeatIn::rattle_repeat(&[1, 2][..], Global, 3)), [1, 2, 1, 2, 1, 2]);
    assert!(RepeatIn::rattle_repeat(&[1_u8, 2][..], Global, usize::MAX).is_err());
    assert_eq!(&*needs_memory!("ab".rattle_to_owned(Global)), "ab");
    assert_eq!(&*needs_memory!(StrIn::rattle_repeat("ab", Global, 3)), "ababab");
    assert!(StrIn::rattle_repeat("ab", Global, usize::MAX).is_err());
    // The product of the lengths overflows, and would wrap to 0. The call fails before it allocates.
    let half = 1 << (usize::BITS - 1);
    assert!(needs_none!(RepeatIn::rattle_repeat(&[1_u8, 2][..], Global, half)).is_err());
    assert!(needs_none!(StrIn::rattle_repeat("ab", Global, half)).is_err());
    // To repeat an empty slice takes no time, for any count.
    assert!(needs_none!(RepeatIn::rattle_repeat(&[0_u8; 0][..], Global, usize::MAX)).unwrap().is_empty());
    assert!(needs_none!(StrIn::rattle_repeat("", Global, usize::MAX)).unwrap().is_empty());
    let copies = RepeatIn::rattle_repeat(&[1, 2, 3][..], Global, 50_000).unwrap();
    assert!(*copies == [1, 2, 3].repeat(50_000) && copies.capacity() == 150_000);
    let copies = StrIn::rattle_repeat("a\u{df}", Global, 50_000).unwrap();
    assert!(copies.as_str() == "a\u{df}".repeat(50_000) && copies.capacity() == 150_000);
    let copies = RepeatIn::rattle_repeat(&[1, 2][..], Global, 3).unwrap();
    assert_eq!(copies.capacity(), 6);
    assert_eq!(StrIn::rattle_repeat("ab", Global, 3).unwrap().capacity(), 6);
}

#[test]
fn iterators_are_collected() {
    let squares: Vec<u32> = needs_memory!((1..4).map(|n| n * n).rattle_collect::<Vec<u32>>(Global));
    assert_eq!(*squares, [1, 4, 9]);
    let text: String = needs_memory!("Aß\n".chars().rattle_collect::<String>(Global));
    assert_eq!(&*text, "Aß\n");
    #[derive(Debug, PartialEq)]
    enum Why {
        Memory,
        Odd(u32),
    }
    impl From<AllocError> for Why {
        fn from(_: AllocError) -> Why {
            Why::Memory
        }
    }
    let even = |n: u32| if n % 2 == 0 { Ok(n) } else { Err(Why::Odd(n)) };
    let all = |list: &'static [u32]| list.iter().map(move |n| even(*n)).rattle_try_collect::<_, Why, Vec<u32>>(Global);
    assert_eq!(*needs_memory!(all(&[2, 4])), [2, 4]);
    assert_eq!(failing_after(0, || all(&[2, 4])).0.unwrap_err(), Why::Memory);
    assert_eq!(all(&[2, 3, 5]).unwrap_err(), Why::Odd(3));
    // The items after the error remain in the iterator.
    let mut items = [2, 3, 5, 7].iter().map(|n| even(*n));
    assert_eq!(items.by_ref().rattle_try_collect::<_, Why, Vec<u32>>(Global).unwrap_err(), Why::Odd(3));
    assert_eq!(items.next(), Some(Err(Why::Odd(5))));
    assert_eq!((0..70_000).rattle_collect::<Vec<u32>>(Global).unwrap().len(), 70_000);
    let many = (0..70_000).map(|n| even(2 * n)).rattle_try_collect::<_, Why, Vec<u32>>(Global);
    assert_eq!(many.unwrap().len(), 70_000);
    const MANY: u32 = (1 << 20) + 1;
    assert!((0..MANY).rattle_collect::<Vec<u32>>(Global).unwrap().iter().copied().eq(0..MANY));
    let many = (0..MANY).map(|n| even(2 * n)).rattle_try_collect::<_, Why, Vec<u32>>(Global);
    assert!(many.unwrap().iter().copied().eq((0..MANY).map(|n| 2 * n)));
    assert_eq!((0..MANY).map(|_| 'a').rattle_collect::<String>(Global).unwrap().len(), MANY as usize);
}

#[test]
fn a_slice_has_chunks() {
    fn chunks<const N: usize>(bytes: &[u8]) -> (std::vec::Vec<[u8; N]>, &[u8]) {
        // The path names the trait, since slices have a method of this name since Rust 1.88.
        let (chunks, rest) = AsChunks::as_chunks::<N>(bytes);
        (chunks.copied().collect(), rest)
    }
    assert_eq!(chunks::<2>(&[1, 2, 3, 4, 5]), (std::vec![[1, 2], [3, 4]], &[5][..]));
    assert_eq!(chunks::<2>(&[1, 2]), (std::vec![[1, 2]], &[][..]));
    assert_eq!(chunks::<4>(&[1]), (std::vec![], &[1][..]));
    for len in (0..300).chain([140_001]) {
        let all = std::vec::Vec::from_iter((0..len).map(|at| at as u8));
        let wanted = std::vec::Vec::from_iter(all.chunks_exact(2).map(|pair| [pair[0], pair[1]]));
        assert!(chunks::<2>(&all) == (wanted, &all[len / 2 * 2..]), "{len}");
    }
    for len in 0..1400 {
        let all = std::vec::Vec::from_iter((0..len).map(|at| at as u8));
        let (made, rest) = chunks::<700>(&all);
        assert!(made.concat() == all[..len / 700 * 700] && rest == &all[len / 700 * 700..], "{len}");
    }
}

/// Also if there is no value that a chunk could have.
#[test]
fn no_chunk_is_empty() {
    for bytes in [&[][..], &[1], &[1, 2]] {
        let tried = std::panic::catch_unwind(|| AsChunks::as_chunks::<0>(bytes).0.count());
        let why = *tried.unwrap_err().downcast::<&str>().unwrap();
        assert!(why.contains("must be non-zero"), "{why}");
    }
}

#[test]
fn a_zip_knows_its_length() {
    use std::iter::FusedIterator;
    fn is_fused(_: &impl FusedIterator) {}
    let hints = [
        (0..3).rattle_zip(0..5).size_hint(),
        (0..5).rattle_zip(0..3).size_hint(),
        (0..).rattle_zip(0..4).size_hint(),
        (0..4).rattle_zip(0..).size_hint(),
        (0..5).filter(|n| *n > 1).rattle_zip(0..3).size_hint(),
        (0..).rattle_zip(0..).size_hint(),
    ];
    let wanted = [(3, Some(3)), (3, Some(3)), (4, Some(4)), (4, Some(4)), (0, Some(3)), (usize::MAX, None)];
    assert_eq!(hints, wanted);
    assert_eq!((0..3).rattle_zip(0..5).len(), 3);
    is_fused(&(0..3).rattle_zip(0..5));
}

/// `next_back` first removes the items after the last pair from the longer iterator. Then it takes an item from the
/// first iterator, and then one from the second.
#[test]
fn a_zip_ends_with_its_last_pair() {
    for (first, second) in [(5, 3), (3, 5), (3, 3), (0, 2), (2, 0)] {
        let count = first.min(second);
        let mut pairs = (0..first).rattle_zip(10..10 + second);
        for at in (0..count).rev() {
            assert_eq!(pairs.next_back(), Some((at, 10 + at)));
        }
        assert_eq!((pairs.next_back(), pairs.next()), (None, None));
    }
    let asked = std::cell::RefCell::new(std::vec::Vec::new());
    let noted = |n: u8| asked.borrow_mut().push(n);
    (0..2).inspect(|n| noted(*n)).rattle_zip((10..13).inspect(|n| noted(*n))).next_back().unwrap();
    assert_eq!(asked.take(), [12, 1, 11]);
    // If there is no pair, no item is removed.
    let mut items = 0..3;
    assert_eq!(items.by_ref().rattle_zip(0..0).next_back(), None);
    assert_eq!(items, 0..3);
}

#[test]
fn errors_are_printed_and_converted() {
    let failed = || AllocFailed { value: 7 };
    assert_eq!(std::format!("{AllocError:?}, {AllocError}"), "AllocError, memory allocation failed");
    assert_eq!(std::format!("{:?}, {}", failed(), failed()), "AllocFailed { .. }, memory allocation failed");
    // Neither a width in the format nor the form of many lines has an effect.
    assert_eq!(std::format!("{:#?} {AllocError:#?}", failed()), "AllocFailed { .. } AllocError");
    let printed = std::format!("{AllocError:30?}, {AllocError:30}, {:30}", failed());
    assert_eq!(printed, "AllocError, memory allocation failed, memory allocation failed");
    // A precision has no effect either, nor a width of the `Debug` form.
    assert_eq!(std::format!("{AllocError:.3?}, {AllocError:.3}, {:.3}", failed()), printed);
    assert_eq!(std::format!("{:40?}, {:>40?}, {:.3?}", failed(), failed(), failed()), ["AllocFailed { .. }"; 3].join(", "));
    let errors: [Box<dyn std::error::Error>; 2] = [Box::new(AllocError), Box::new(failed())];
    assert!(errors.iter().all(|error| error.source().is_none()));
    assert_eq!(AllocError::from(failed()), AllocError);
    assert_eq!(std::fmt::Error::from(AllocError), std::fmt::Error);
    assert_eq!(std::format!("{:?}", std_of_rattle::alloc::Global), "Global");
}

/// The calls that read into a collection fail with `OutOfMemory` if the allocation of the collection fails.
#[test]
fn reads_say_that_memory_is_short() {
    use rattle_host::io::{ErrorKind, Write};
    let kind = |read: rattle_host::io::Result<usize>| read.unwrap_err().kind();
    let (mut bytes, mut text) = (Vec::new(Global), String::new(Global));
    let (wrote, failed) = failing_after(0, || bytes.write(b"ab"));
    assert!(failed && kind(wrote) == ErrorKind::OutOfMemory);
    let (read, failed) = failing_after(0, || b"ab".as_slice().rattle_read_to_end(&mut bytes));
    assert!(failed && kind(read) == ErrorKind::OutOfMemory);
    for count in 0..2 {
        let (read, failed) = failing_after(count, || b"ab".as_slice().rattle_read_to_string(&mut text));
        assert!(failed && kind(read) == ErrorKind::OutOfMemory, "{count}");
    }
    for count in 0..2 {
        let (read, failed) = failing_after(count, || b"ab".as_slice().rattle_read_line(&mut text));
        assert!(failed && kind(read) == ErrorKind::OutOfMemory, "{count}");
    }
    assert!(bytes.is_empty() && text.is_empty());
    // The bytes of the last read are lost, and those of the first one are there.
    let (long, mut bytes) = (std::vec![7; 10_000], Vec::new(Global));
    let mut rest = &long[..];
    let (read, failed) = failing_after(1, || rest.rattle_read_to_end(&mut bytes));
    assert!(failed && kind(read) == ErrorKind::OutOfMemory);
    assert_eq!((bytes.len(), rest.len()), (4096, 10_000 - 2 * 4096));
    assert_eq!(rattle_host::io::Error::from(AllocError).kind(), ErrorKind::OutOfMemory);
    assert_eq!(rattle_host::io::Error::from(AllocFailed { value: 7 }).kind(), ErrorKind::OutOfMemory);
    // An error that is made of one of these is the plain one of its kind.
    let plain = rattle_host::io::Error::from(ErrorKind::OutOfMemory).to_string();
    for why in [rattle_host::io::Error::from(AllocError), rattle_host::io::Error::from(AllocFailed { value: 7 })] {
        assert_eq!((why.to_string(), why.get_ref().is_none()), (plain.clone(), true));
    }
}

/// `rattle_read_to_end` returns how many bytes it read, also if these are many.
#[test]
fn long_inputs_are_read_whole() {
    for len in LONG {
        let (bytes, mut read) = (std::vec![7; len], Vec::from_array(Global, [1]).unwrap());
        assert_eq!((&bytes[..]).rattle_read_to_end(&mut read).unwrap(), len);
        assert!(read[0] == 1 && read[1..] == bytes, "{len}");
    }
}

/// What the vector or string already has isn't counted, and stays.
#[test]
fn inputs_are_read_behind_what_is_there() {
    for before in LONG.into_iter().chain([0, 4095, 4096, 4097, 8192]) {
        let mut bytes = Vec::from_elem(Global, 1, before).unwrap();
        assert_eq!(b"abc".as_slice().rattle_read_to_end(&mut bytes).unwrap(), 3);
        assert!(bytes.len() == before + 3 && bytes[before..] == *b"abc" && bytes[..before].iter().all(|byte| *byte == 1));
        let mut text = String::from_str(Global, &"x".repeat(before)).unwrap();
        assert_eq!("aé".as_bytes().rattle_read_to_string(&mut text).unwrap(), 3);
        assert_eq!("b\nc".as_bytes().rattle_read_line(&mut text).unwrap(), 2);
        assert!(text.len() == before + 5 && text.ends_with("aéb\n"));
    }
}

/// A character that the input ends within is an error, and the string stays as it was.
#[test]
fn a_character_that_is_cut_is_refused() {
    for whole in ["é", "€", "\u{10ffff}"] {
        for end in 1..whole.len() {
            let input = [b"ab", &whole.as_bytes()[..end]].concat();
            let mut text = String::from_str(Global, "x").unwrap();
            let reads = [input.as_slice().rattle_read_to_string(&mut text), input.as_slice().rattle_read_line(&mut text)];
            for read in reads {
                assert_eq!(read.unwrap_err().kind(), std::io::ErrorKind::InvalidData);
            }
            assert_eq!(text.as_str(), "x");
        }
    }
}

/// Each input of up to seven bytes has the lines that Rust's `lines` gives.
#[test]
fn lines_are_those_of_rust() {
    let mut inputs = std::vec![std::vec![]];
    let mut from = 0;
    while inputs[from].len() < 7 {
        let shorter = inputs[from].clone();
        inputs.extend(b"a\r\n".map(|byte| [&shorter[..], &[byte]].concat()));
        from += 1;
    }
    for input in inputs {
        let ours = (&input[..]).rattle_lines(Global).map(|line| std::string::String::from(line.unwrap()));
        let theirs = std::io::BufRead::lines(&input[..]).map(|line| line.unwrap());
        assert!(ours.eq(theirs), "{input:?}");
    }
}

/// A reader that is interrupted before each read, and gives at most this many bytes at once.
struct Interrupted<'a>(&'a [u8], usize, bool);

impl std::io::Read for Interrupted<'_> {
    fn read(&mut self, buffer: &mut [u8]) -> std::io::Result<usize> {
        self.2 = !self.2;
        if self.2 {
            return Err(std::io::Error::from(std::io::ErrorKind::Interrupted));
        }
        let most = self.1.min(buffer.len());
        self.0.read(&mut buffer[..most])
    }
}

/// The lines of a text, each by a call, with the result of the last call.
fn lines_of(text: &[u8], capacity: usize) -> (std::vec::Vec<std::string::String>, rattle_host::io::Result<usize>) {
    let mut reader = std::io::BufReader::with_capacity(capacity, Interrupted(text, 3, false));
    let mut lines = std::vec::Vec::new();
    loop {
        let mut line = String::from_str(Global, "> ").unwrap();
        match reader.rattle_read_line(&mut line) {
            Ok(count @ 1..) => {
                assert_eq!(count + 2, line.len());
                lines.push(line.as_str().to_owned());
            }
            ended => return (lines, ended),
        }
    }
}

/// The line is longer than 1 MiB, and the text has another one after it.
#[test]
fn a_long_line_is_read_whole() {
    for len in [65_537, 1_048_577, 3_000_001] {
        let mut text = std::vec![b'x'; len];
        text.extend_from_slice(b"\nab");
        let mut rest = text.as_slice();
        let mut line = String::new(Global);
        assert_eq!(rest.rattle_read_line(&mut line).unwrap(), len + 1);
        assert!(line.as_bytes() == &text[..len + 1]);
        assert_eq!(rest, b"ab");
        // The same line in pieces.
        let mut reader = std::io::BufReader::new(text.as_slice());
        line.clear();
        assert_eq!(reader.rattle_read_line(&mut line).unwrap(), len + 1);
        assert!(line.as_bytes() == &text[..len + 1]);
    }
}

#[test]
fn a_line_is_read_in_pieces() {
    for capacity in 1..9 {
        let (lines, ended) = lines_of(b"ab\n\n\r\nabcdefg\nlast", capacity);
        assert_eq!(lines, ["> ab\n", "> \n", "> \r\n", "> abcdefg\n", "> last"]);
        assert_eq!(ended.unwrap(), 0);
        let (lines, ended) = lines_of(b"ab\n\xc3\xa9\na\xff\nab", capacity);
        assert_eq!(lines, ["> ab\n", "> \u{e9}\n"]);
        assert_eq!(ended.unwrap_err().kind(), std::io::ErrorKind::InvalidData);
    }
    let long = "a".repeat(70_001) + "\nb";
    let (lines, _) = lines_of(long.as_bytes(), 8192);
    assert_eq!(lines, ["> ".to_owned() + &long[..70_002], "> b".to_owned()]);
}
