//! Tests of the slices that are made of C's pointers and lengths.
use rattle_c::{lent, shown};
use std::ptr;

#[test]
fn a_length_of_0_needs_no_pointer() {
    let (read, written): (&[u8], &mut [u8]) = unsafe { (shown(ptr::null(), 0), lent(ptr::null_mut(), 0)) };
    assert!(read.is_empty() && written.is_empty());
    let (read, written): (&[u32], &mut [u32]) = unsafe { (shown(ptr::null(), 0), lent(ptr::null_mut(), 0)) };
    assert!(read.is_empty() && written.is_empty());
    // A pointer that isn't aligned, and points to nothing, isn't used either.
    let odd = ptr::without_provenance::<u32>(1);
    let (read, written): (&[u32], &mut [u32]) = unsafe { (shown(odd, 0), lent(odd.cast_mut(), 0)) };
    assert!(read.is_empty() && written.is_empty());
}

/// The compiler doesn't know the pointer and the length, so that it can't leave out a comparison.
#[test]
fn a_length_of_0_gives_a_pointer_that_is_not_null() {
    use std::hint::black_box;
    for at in [ptr::null_mut::<u32>(), ptr::without_provenance_mut(1)] {
        let (at, len) = (black_box(at), black_box(0));
        let read = black_box(unsafe { shown(at.cast_const(), len) });
        let written = black_box(unsafe { lent(at, len) });
        assert_eq!((read.len(), written.len()), (0, 0));
        for made in [black_box(read.as_ptr()), black_box(written.as_ptr())] {
            assert!(black_box(made.addr()) != 0 && made.is_aligned(), "{made:?}");
        }
    }
}

#[test]
fn a_slice_has_the_items_at_the_pointer() {
    for len in (0..5).chain([257, 65_537, 131_073]) {
        let mut items: Vec<u16> = (0..len + 1).map(|at| at as u16).collect();
        let before = items.clone();
        let at = items.as_mut_ptr();
        assert!(unsafe { shown(at.cast_const(), len) } == &before[..len]);
        let written = unsafe { lent(at, len) };
        assert!(written == &before[..len]);
        written.fill(9);
        assert!(items[..len].iter().all(|item| *item == 9) && items[len] == before[len]);
        if len > 0 {
            assert_eq!(unsafe { shown(at.cast_const(), len) }.as_ptr(), at.cast_const());
            assert_eq!(unsafe { lent(at, len) }.as_ptr(), at.cast_const());
        }
    }
}

/// No length up to 66,000 is treated specially, wherever the slice begins.
#[test]
fn a_slice_of_each_length_has_it() {
    let mut items = vec![0_u16; 66_000];
    for len in 0..=items.len() {
        for from in [0, items.len() - len] {
            let at = items[from..].as_mut_ptr();
            let read = unsafe { shown(at.cast_const(), len) };
            assert!(read.len() == len && (len == 0 || read.as_ptr() == at.cast_const()), "{len}");
            let written = unsafe { lent(at, len) };
            assert!(written.len() == len && (len == 0 || written.as_ptr() == at.cast_const()), "{len}");
        }
    }
}

/// The items need no trait, and may contain borrows: this is checked by the compiler. If one of the calls weren't unsafe, the
/// compiler would report an unused `unsafe`.
#[test]
#[deny(unused_unsafe)]
fn items_need_no_trait() {
    struct Bare<'a>(&'a std::cell::Cell<u8>);
    fn typed<'a, T: 'a>() {
        let _: unsafe fn(*const T, usize) -> &'a [T] = shown;
        let _: unsafe fn(*mut T, usize) -> &'a mut [T] = lent;
    }
    typed::<Bare<'_>>();
    let cell = std::cell::Cell::new(0);
    let mut items = [Bare(&cell), Bare(&cell)];
    let at = items.as_mut_ptr();
    let read = unsafe { shown(at.cast_const(), 2) };
    read[1].0.set(7);
    let written = unsafe { lent(at, 1) };
    assert_eq!((written[0].0.get(), cell.get()), (7, 7));
}

/// A slice of items of size 0 has the length that was given.
#[test]
fn a_slice_of_items_with_no_size_has_its_length() {
    let mut items = [(); 3];
    let at = items.as_mut_ptr();
    assert_eq!(unsafe { shown(at.cast_const(), 3) }.len(), 3);
    assert_eq!(unsafe { lent(at, 3) }.len(), 3);
}

/// The slices have 4, 8, 16 and 32 GiB, and five bytes more. The test ends at the first size that the system doesn't
/// allocate. The system zeroes a page of this memory only when the page is accessed.
#[cfg(target_pointer_width = "64")]
#[test]
fn a_length_of_more_than_32_bits_is_whole() {
    for len in (32..36).flat_map(|bits| [1 << bits, (1 << bits) + 5]) {
        if Vec::<u8>::new().try_reserve_exact(len).is_err() {
            return;
        }
        let mut items = vec![0_u8; len];
        let at = items.as_mut_ptr();
        let written = unsafe { lent(at, len) };
        assert_eq!(written.len(), len);
        written[len - 1] = 9;
        let read = unsafe { shown(at.cast_const(), len) };
        assert_eq!((read.len(), read[len - 1]), (len, 9));
    }
}
