//! The traits and lifetimes that the API requires of a caller's type, and no others. Most of these tests only have to
//! compile.
use octets::{BufferTooShortError, Octets, OctetsMut, OctetsWriter};
use std::cell::RefCell;
use std::rc::Rc;

/// An error that implements no trait but those that every type implements. It is neither `Send` nor `Sync` nor `Unpin`.
struct Bare<'a>(Rc<RefCell<&'a str>>, std::marker::PhantomPinned);

/// A sink that isn't `Send`, `Sync`, `Unpin`, `UnwindSafe`, `Debug`, `Clone` or `'static`.
struct Local<'a> {
    bytes: &'a RefCell<Vec<u8>>,
    why: Rc<RefCell<&'a str>>,
    _pinned: std::marker::PhantomPinned,
}

impl<'a> OctetsWriter for Local<'a> {
    type Error = Bare<'a>;

    fn put_bytes(&mut self, v: &[u8]) -> Result<(), Bare<'a>> {
        if v.contains(&0) {
            return Err(Bare(Rc::clone(&self.why), self._pinned));
        }
        self.bytes.borrow_mut().extend_from_slice(v);
        Ok(())
    }
}

/// A sink whose size isn't known when it is compiled.
struct Unsized([u8]);

impl OctetsWriter for Unsized {
    type Error = std::convert::Infallible;

    fn put_bytes(&mut self, v: &[u8]) -> Result<(), Self::Error> {
        self.0[..v.len()].copy_from_slice(v);
        Ok(())
    }
}

fn reason(put: Result<(), Bare<'_>>) -> String {
    match put {
        Ok(()) => String::new(),
        Err(Bare(why, _)) => why.borrow().to_string(),
    }
}

#[test]
fn a_sink_and_its_error_need_no_other_trait() {
    let bytes = RefCell::new(Vec::new());
    let mut sink = Local { bytes: &bytes, why: Rc::new(RefCell::new("a zero")), _pinned: std::marker::PhantomPinned };
    assert_eq!(reason(sink.put_bytes(b"ab")), "");
    let object: &mut dyn OctetsWriter<Error = Bare<'_>> = &mut sink;
    assert_eq!(reason(object.put_bytes(&[0])), "a zero");
    // The Huffman code of "0" is five zero bits, so the encoding of eight of them begins with a zero byte.
    #[cfg(feature = "huffman_hpack")]
    assert_eq!(reason(sink.put_huffman_encoded::<false>(b"00000000")), "a zero");
    assert_eq!(bytes.into_inner(), b"ab");
    let _: Option<fn(&mut Unsized, &[u8]) -> _> = Some(<Unsized as OctetsWriter>::put_bytes);
}

/// A sink whose implementation is generic. It compiles, because the crate has no generic implementation that overlaps.
struct Kept<T>(T);

impl<T: ?Sized> OctetsWriter for Kept<&T> {
    type Error = ();

    fn put_bytes(&mut self, _: &[u8]) -> Result<(), ()> {
        Ok(())
    }
}

/// A crate may implement the trait for its own type, for a reference to that type, and for a box of it.
struct Own;

impl OctetsWriter for Own {
    type Error = u8;

    fn put_bytes(&mut self, _: &[u8]) -> Result<(), u8> {
        Err(1)
    }
}

impl OctetsWriter for &mut Own {
    type Error = u8;

    fn put_bytes(&mut self, _: &[u8]) -> Result<(), u8> {
        Err(2)
    }
}

impl OctetsWriter for Box<Own> {
    type Error = u8;

    fn put_bytes(&mut self, _: &[u8]) -> Result<(), u8> {
        Err(3)
    }
}

#[test]
fn a_reference_and_a_box_are_sinks_of_their_own() {
    fn put<W: OctetsWriter<Error = u8>>(mut sink: W) -> Result<(), u8> {
        sink.put_bytes(b"a")
    }
    assert_eq!((put(Own), put(&mut Own), put(Box::new(Own))), (Err(1), Err(2), Err(3)));
}

/// The trait has no other method, so a sink may also have methods of other traits, such as `flush` of `Write`.
#[test]
fn a_sink_has_other_calls_of_its_own() {
    trait Other {
        fn flush(&mut self) -> u8 {
            1
        }
        fn write(&mut self, _: &[u8]) -> u8 {
            2
        }
        fn put_u8(&mut self, _: u8) -> u8 {
            3
        }
        fn put_varint(&mut self, _: u64) -> u8 {
            4
        }
        fn put_string(&mut self, _: &[u8]) -> u8 {
            5
        }
    }
    impl Other for Own {}
    let said = [Own.flush(), Own.write(b""), Own.put_u8(0), Own.put_varint(0), Own.put_string(b"")];
    assert_eq!((said, Own.put_bytes(b"")), ([1, 2, 3, 4, 5], Err(1)));
}

#[test]
fn a_sink_replaces_the_provided_call() {
    struct Counted(usize);
    impl OctetsWriter for Counted {
        type Error = ();
        fn put_bytes(&mut self, v: &[u8]) -> Result<(), ()> {
            self.0 += v.len();
            Ok(())
        }
        #[cfg(feature = "huffman_hpack")]
        fn put_huffman_encoded<const LOWER_CASE: bool>(&mut self, _: &[u8]) -> Result<(), ()> {
            self.0 += 1000;
            Ok(())
        }
    }
    let mut sink = Counted(0);
    sink.put_bytes(b"ab").unwrap();
    #[cfg(feature = "huffman_hpack")]
    sink.put_huffman_encoded::<true>(b"ab").unwrap();
    assert_eq!(sink.0, if cfg!(feature = "huffman_hpack") { 1002 } else { 2 });
    assert_eq!(Kept(b"ab").put_bytes(b"c"), Ok(()));
}

/// The returned slice has the lifetime of the buffer, not that of the cursor.
fn first(bytes: &[u8]) -> Result<&[u8], BufferTooShortError> {
    let mut cursor = Octets::with_slice(bytes);
    let view = cursor.get_bytes_with_u8_length()?;
    view.slice(view.cap())
}

fn filled<'a>(bytes: &'a mut &mut [u8]) -> OctetsMut<'a> {
    OctetsMut::with_slice(bytes)
}

#[test]
fn lifetimes_are_those_of_the_bytes() {
    let bytes = vec![2, 7, 8];
    assert_eq!(first(&bytes), Ok(&[7, 8][..]));
    let mut room = [0; 2];
    let mut lent = &mut room[..];
    filled(&mut lent).put_u16(0x0102).unwrap();
    assert_eq!(room, [1, 2]);
}
