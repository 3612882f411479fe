//! Tests of the feature `more`.
#![cfg(feature = "more")]
use octets::more::*;
use octets::{BufferTooShortError, MAX_VAR_INT, Octets, OctetsMut, OctetsWriter};

#[allow(dead_code)]
#[path = "../examples/headers.rs"]
mod headers;

const SHORT: BufferTooShortError = BufferTooShortError;

/// Runs the same lines with a cursor of each kind.
macro_rules! both {
    ($bytes:expr, $cursor:ident => $body:block) => {{
        let mut bytes = $bytes.to_vec();
        {
            let mut $cursor = Octets::with_slice(&bytes);
            $body
        }
        let mut $cursor = OctetsMut::with_slice(&mut bytes);
        $body
    }};
}

#[test]
fn the_release_is_described() {
    let newest = include_str!("../CHANGELOG.md").split("\n## Release ").nth(1).unwrap();
    assert!(newest.starts_with(&format!("{RELEASE}\n")));
}

#[test]
fn the_manifest_names_the_oldest_rustc() {
    assert_eq!(env!("CARGO_PKG_RUST_VERSION"), "1.85");
}

/// The example reads what it wrote, with names in lower case, up to names and values of 4096 bytes.
#[test]
fn header_blocks_are_read_up_to_a_limit() {
    for (name, value) in [("", ""), ("Host", "Ab=~"), (&*"N".repeat(4096), &*"v".repeat(4096))] {
        let fields = [("A", "Z"), (name, value), (value, name)];
        let block = headers::write_block(&fields).unwrap();
        let wanted = fields.map(|(name, value)| (name.to_ascii_lowercase().into_bytes(), value.as_bytes().to_vec()));
        assert_eq!(headers::read_block(&block).unwrap(), wanted);
    }
    let long = "x".repeat(4097);
    for fields in [[("a", "b"), (&*long, "")], [("a", "b"), ("", &*long)]] {
        let block = headers::write_block(&fields).unwrap();
        assert_eq!(headers::read_block(&block), Err(LiteralError::Value));
    }
    // The last value is missing, or lacks a byte.
    let block = headers::write_block(&[("a", "bc")]).unwrap();
    for end in 1..block.len() {
        assert_eq!(headers::read_block(&block[..end]), Err(LiteralError::Short));
    }
}

/// In an example of RFC 9000, appendix A.1, the two bytes 40 25 are a varint of the value 37, which the byte 25 is too.
#[test]
fn a_varint_that_is_too_wide_is_an_error() {
    for (bytes, read, off) in [
        (&[0x25][..], Ok(37), 1),
        (&[0x40, 0x25], Err(VarintError::Overlong), 0),
        (&[0x40, 0x3f], Err(VarintError::Overlong), 0),
        (&[0x40, 0x40], Ok(64), 2),
        (&[0x80, 0, 0x3f, 0xff], Err(VarintError::Overlong), 0),
        (&[0x80, 0, 0x40, 0], Ok(16_384), 4),
        (&[0xc0, 0, 0, 0, 0x3f, 0xff, 0xff, 0xff], Err(VarintError::Overlong), 0),
        (&[0xc0, 0, 0, 0, 0x40, 0, 0, 0], Ok(1 << 30), 8),
        (&[0xff; 8], Ok(MAX_VAR_INT), 8),
        (&[0xff; 7], Err(VarintError::Short), 0),
        (&[], Err(VarintError::Short), 0),
    ] {
        both!(bytes, cursor => {
            assert_eq!((cursor.get_varint_shortest(), cursor.off()), (read, off), "{bytes:02x?}");
        });
    }
    both!([0x25, 0x40, 0x25, 7], cursor => {
        cursor.skip(1).unwrap();
        assert_eq!(cursor.get_varint_shortest(), Err(VarintError::Overlong));
        assert_eq!((cursor.off(), cursor.get_varint()), (1, Ok(37)));
        assert_eq!((cursor.get_varint_shortest(), cursor.off()), (Ok(7), 4));
    });
}

#[test]
fn a_width_holds_a_value_or_not() {
    for (width, most) in [(1, 63), (2, 16_383), (4, (1 << 30) - 1), (8, MAX_VAR_INT)] {
        assert!(varint_fits(0, width) && varint_fits(most, width) && !varint_fits(most + 1, width));
    }
    for width in [0, 3, 5, 7, 9, 257, usize::MAX] {
        assert!(!varint_fits(0, width));
    }
}

#[test]
fn what_remains_is_copied() {
    both!(*b"abc", cursor => {
        cursor.skip(1).unwrap();
        assert_eq!(cursor.try_to_vec().unwrap(), b"bc");
        cursor.skip(2).unwrap();
        assert_eq!(cursor.try_to_vec().unwrap(), b"");
    });
    both!(vec![7; 3 << 20], cursor => {
        cursor.skip(1).unwrap();
        assert!(cursor.try_to_vec().unwrap() == cursor.as_ref());
    });
}

/// The Huffman encoding of "302" (RFC 7541, appendix C.6.1).
const TEXT: [u8; 2] = [0x64, 0x02];

#[test]
fn texts_are_decoded_with_errors_for_each_reason() {
    let read = |limit| Octets::with_slice(&TEXT).try_get_huffman_decoded_with_max_length(limit);
    assert_eq!(Octets::with_slice(&TEXT).try_get_huffman_decoded().unwrap(), b"302");
    for limit in [3, 4, usize::MAX] {
        assert_eq!(read(limit).unwrap(), b"302");
    }
    for limit in [0, 1, 2] {
        assert_eq!(read(limit), Err(DecodeError::Short(SHORT)));
    }
    let mut cursor = Octets::with_slice(&[9, 0x64, 0xff, 0xff, 0xff, 0xff, 9]);
    cursor.skip(1).unwrap();
    assert_eq!(cursor.try_get_huffman_decoded(), Err(DecodeError::Short(SHORT)));
    let mut other = Octets::with_slice(cursor.buf());
    other.skip(1).unwrap();
    assert_eq!(other.get_huffman_decoded(), Err(SHORT));
    assert_eq!((cursor.off() > 1, cursor.off()), (true, other.off()));
}

#[test]
fn steps_are_counted_onto_those_before() {
    let mut steps = Steps::new();
    let mut read = |limit| {
        let mut cursor = Octets::with_slice(&TEXT);
        let value = cursor.try_get_huffman_decoded_counted(limit, &mut steps);
        (value, cursor.off(), steps.count())
    };
    assert_eq!(read(3), (Ok(b"302".to_vec()), 2, 4));
    assert_eq!(read(9), (Ok(b"302".to_vec()), 2, 8));
    let (value, _, count) = read(2);
    assert_eq!(value, Err(DecodeError::Short(SHORT)));
    assert!((9..=12).contains(&count));
}

/// The symbols end in the second nibble, in the third and in the fourth, so that as many steps are taken before the error.
#[test]
fn steps_before_a_limit_are_counted() {
    for (limit, wanted) in [(0, 2), (1, 3), (2, 4), (3, 4)] {
        let mut steps = Steps::new();
        let read = Octets::with_slice(&TEXT).try_get_huffman_decoded_counted(limit, &mut steps);
        assert_eq!((read.is_ok(), steps.count()), (limit == 3, wanted), "{limit}");
    }
}

/// The varint has more bytes than its value needs, wherever it is and whatever follows.
#[test]
fn a_varint_that_is_too_wide_is_one_at_each_offset() {
    for (width, mark) in [(2, 0x40), (4, 0x80), (8, 0xc0)] {
        for off in 0..3 {
            for more in 0..10 {
                let mut bytes = vec![0; off + width + more];
                bytes[off] = mark;
                both!(bytes, cursor => {
                    cursor.skip(off).unwrap();
                    assert_eq!((cursor.get_varint_shortest(), cursor.off()), (Err(VarintError::Overlong), off));
                });
            }
        }
    }
}

#[test]
fn a_text_is_decoded_into_a_slice() {
    let mut out = [0xee; 4];
    let mut cursor = Octets::with_slice(&[9, 0x64, 0x02]);
    cursor.skip(1).unwrap();
    assert_eq!((cursor.get_huffman_decoded_into(&mut out), cursor.cap()), (Ok(3), 0));
    assert_eq!(out, *b"302\xee");
    let mut out = [0xee; 2];
    assert_eq!(Octets::with_slice(&TEXT).get_huffman_decoded_into(&mut out), Err(IntoError::NoRoom));
    assert_eq!(out, *b"30");
    // These bytes contain the code of the end.
    let read = Octets::with_slice(&[0xff; 4]).get_huffman_decoded_into(&mut [0; 9]);
    assert_eq!(read, Err(IntoError::NotText { written: 0 }));
    let read = Octets::with_slice(&[0x1f, 0xff, 0xff]).get_huffman_decoded_into(&mut [0; 9]);
    assert_eq!(read, Err(IntoError::NotText { written: 1 }));
    assert_eq!(Octets::with_slice(&[]).get_huffman_decoded_into(&mut []), Ok(0));
}

/// The code of a zero byte has 13 bits, that of "a" has five, and that of "A" has six.
#[test]
fn a_text_may_be_longer_than_its_value() {
    assert_eq!((huffman_text_len::<false>(&[0]), huffman_text_len::<false>(b"")), (2, 0));
    assert_eq!(huffman_text_len::<false>(b"AAAAAAAA"), 6);
    assert_eq!(huffman_text_len::<true>(b"AAAAAAAA"), 5);
}

/// The string literal of "www.example.com" (RFC 7541, appendix C.4.1).
const LITERAL: [u8; 13] = *b"\x8c\xf1\xe3\xc2\xe5\xf2\x3a\x6b\xa0\xab\x90\xf4\xff";

#[test]
fn a_literal_is_read() {
    let bytes = [&[9], &LITERAL[..], b"\x02ab"].concat();
    let mut cursor = Octets::with_slice(&bytes);
    cursor.skip(1).unwrap();
    assert_eq!(cursor.get_string(14), Err(LiteralError::Value));
    assert_eq!(cursor.off(), 1);
    assert_eq!(cursor.get_string(15).unwrap(), b"www.example.com");
    assert_eq!(cursor.off(), 14);
    assert_eq!(cursor.get_string(2).unwrap(), b"ab");
    assert_eq!((cursor.get_string(2), cursor.cap()), (Err(LiteralError::Short), 0));
    for (bytes, why) in [
        (&b"\x02a"[..], LiteralError::Short),
        (b"\x7f", LiteralError::Short),
        (b"\x7f\xff\xff\xff\xff\xff", LiteralError::Length),
        (b"\x7f\x81\xff\xff\xff\x0f", LiteralError::Length),
        (b"\x02ab", LiteralError::Value),
        (b"\x81\x00", LiteralError::Value),
    ] {
        let mut out = [0xee; 1];
        let mut cursor = Octets::with_slice(bytes);
        assert_eq!((cursor.get_string(1), cursor.off()), (Err(why), 0), "{bytes:02x?}");
        let mut cursor = Octets::with_slice(bytes);
        assert_eq!((cursor.get_string_into(&mut out), cursor.off()), (Err(why), 0));
    }
}

#[test]
fn a_literal_is_read_into_a_slice() {
    let bytes = [&LITERAL[..], b"\x02ab"].concat();
    let mut out = [0xee; 16];
    let mut cursor = Octets::with_slice(&bytes);
    assert_eq!((cursor.get_string_into(&mut out), cursor.off()), (Ok(15), 13));
    assert_eq!(out, *b"www.example.com\xee");
    assert_eq!((cursor.get_string_into(&mut out[..1]), cursor.off()), (Err(LiteralError::Value), 13));
    assert_eq!(out, *b"www.example.com\xee");
    assert_eq!((cursor.get_string_into(&mut out[..2]), cursor.cap()), (Ok(2), 0));
    assert_eq!(out, *b"abw.example.com\xee");
}

#[test]
fn literals_are_read_to_the_end() {
    let bytes = [&LITERAL[..], b"\x00\x02ab"].concat();
    let mut cursor = Octets::with_slice(&bytes);
    assert_eq!(cursor.get_strings(15).unwrap(), [&b"www.example.com"[..], b"", b"ab"]);
    assert_eq!((cursor.cap(), cursor.get_strings(0)), (0, Ok(vec![])));
    let mut cursor = Octets::with_slice(&bytes[13..]);
    assert_eq!((cursor.get_strings(1), cursor.off()), (Err(LiteralError::Value), 1));
    let mut cursor = Octets::with_slice(&bytes[..16]);
    assert_eq!((cursor.get_strings(15), cursor.off()), (Err(LiteralError::Short), 14));
}

#[test]
fn a_literal_is_written() {
    let mut bytes = [0xee; 20];
    let mut cursor = OctetsMut::with_slice(&mut bytes);
    cursor.skip(1).unwrap();
    cursor.put_string::<true>(b"WWW.example.COM").unwrap();
    assert_eq!(cursor.off(), 14);
    cursor.put_string::<false>(b"\n").unwrap();
    assert_eq!(cursor.put_string::<false>(b"aB\n\n"), Err(SHORT));
    assert_eq!(cursor.off(), 16);
    cursor.put_string::<true>(b"aB\n").unwrap();
    assert_eq!(bytes, *[&[0xee], &LITERAL[..], b"\x01\n\x03ab\n"].concat());
    let mut bytes = [0xee; 3];
    assert_eq!(OctetsMut::with_slice(&mut bytes[..2]).put_string::<false>(b"\n\n"), Err(SHORT));
    assert_eq!(bytes, [0xee; 3]);
    OctetsMut::with_slice(&mut bytes).put_string::<false>(b"AB").unwrap();
    assert_eq!(bytes, *b"\x02AB");
}

#[test]
fn a_sink_gets_a_literal() {
    let mut bytes = vec![9];
    put_string::<true, _>(&mut bytes, b"WWW.EXAMPLE.COM").unwrap();
    put_string::<false, _>(&mut bytes, b"A\n").unwrap();
    assert_eq!(bytes, [&[9], &LITERAL[..], b"\x02A\n"].concat());
    let mut room = [0xee; 4];
    let mut cursor = OctetsMut::with_slice(&mut room);
    assert_eq!(put_string::<false, _>(&mut cursor, b"www.example.com"), Err(SHORT));
    assert_eq!(put_string::<false, _>(&mut OctetsMut::with_slice(&mut room), b"A\n"), Ok(()));
    assert_eq!(room[..3], *b"\x02A\n");
}

/// The Huffman encoding of these bytes is longer than they are, so the sink gets them all in one piece.
#[test]
fn a_sink_gets_a_long_value_whole() {
    let (value, mut bytes) = (vec![0xff; 100_001], Vec::new());
    put_string::<false, _>(&mut bytes, &value).unwrap();
    assert_eq!(bytes[..4], [0x7f, 0xa2, 0x8c, 0x06]);
    assert!(bytes[4..] == value);
}

#[test]
fn a_vector_is_a_sink() {
    let mut bytes = vec![9];
    OctetsWriter::put_bytes(&mut bytes, b"ab").unwrap();
    OctetsWriter::put_bytes(&mut bytes, b"").unwrap();
    bytes.put_huffman_encoded::<false>(b"302").unwrap();
    assert_eq!(bytes, [9, b'a', b'b', 0x64, 0x02]);
    let long = vec![7; 3 << 20];
    OctetsWriter::put_bytes(&mut bytes, &long).unwrap();
    assert!(bytes[5..] == long);
}

#[test]
fn a_buffer_is_given_back() {
    fn written(cursor: OctetsMut<'_>) -> &mut [u8] {
        cursor.into_inner()
    }
    let mut bytes = [0; 3];
    let mut cursor = OctetsMut::with_slice(&mut bytes);
    cursor.put_u16(0x0102).unwrap();
    written(cursor)[2] = 3;
    assert_eq!(bytes, [1, 2, 3]);
}

/// Returns a value of zeros that is one byte longer than a literal's value may be, about 4 GiB, or `None` if the system
/// doesn't allocate so many. The calls access no page of them.
#[cfg(target_pointer_width = "64")]
fn too_long() -> Option<Vec<u8>> {
    Vec::<u8>::new().try_reserve_exact(MAX_LITERAL_LEN + 1).ok()?;
    Some(vec![0; MAX_LITERAL_LEN + 1])
}

#[cfg(target_pointer_width = "64")]
#[test]
fn no_literal_is_longer_than_its_length_says() {
    let Some(value) = too_long() else { return };
    let said = |call: &(dyn Fn() + std::panic::RefUnwindSafe)| {
        let what = std::panic::catch_unwind(call).expect_err("it panics");
        what.downcast_ref::<&str>().expect("a message").to_string()
    };
    let wanted = "value is too long for a string literal";
    assert_eq!(said(&|| _ = OctetsMut::with_slice(&mut [0; 9]).put_string::<false>(&value)), wanted);
    assert_eq!(said(&|| _ = put_string::<false, _>(&mut Vec::new(), &value)), wanted);
}

#[cfg(target_pointer_width = "64")]
#[test]
#[cfg_attr(debug_assertions, ignore = "it reads 4 GiB, which takes minutes")]
fn the_longest_literal_needs_only_more_space() {
    let Some(value) = too_long() else { return };
    let put = OctetsMut::with_slice(&mut [0; 9]).put_string::<false>(&value[1..]);
    assert_eq!(put, Err(BufferTooShortError));
}

#[test]
fn errors_say_why() {
    let errors: [(Box<dyn std::error::Error>, &str); 5] = [
        (Box::new(VarintError::Overlong), "the varint is wider than its value needs"),
        (Box::new(IntoError::NoRoom), "the value is longer than the slice"),
        (Box::new(DecodeError::Memory(AllocError)), "out of memory"),
        (Box::new(LiteralError::OutOfMemory), "out of memory"),
        (Box::new(AllocError), "memory allocation failed"),
    ];
    for (error, wanted) in errors {
        assert_eq!(error.to_string(), wanted);
    }
}

/// The limit is a power of two, so it would be 0 in a number with too few bits.
#[test]
fn no_limit_is_cut() {
    let literals = [&LITERAL[..], b"\x02ab"].concat();
    for limit in (4..usize::BITS).map(|bits| 1 << bits) {
        let read = Octets::with_slice(&TEXT).try_get_huffman_decoded_with_max_length(limit);
        assert_eq!(read.unwrap(), b"302");
        let read = Octets::with_slice(&TEXT).try_get_huffman_decoded_counted(limit, &mut Steps::new());
        assert_eq!(read.unwrap(), b"302");
        assert_eq!(Octets::with_slice(&literals).get_string(limit).unwrap(), b"www.example.com");
        let read = Octets::with_slice(&literals).get_strings(limit).unwrap();
        assert_eq!(read, [&b"www.example.com"[..], b"ab"]);
    }
    // Each byte is the literal of an empty value.
    for count in [0, 255, 256, 65_537, 70_001] {
        let read = Octets::with_slice(&vec![0; count]).get_strings(1).unwrap();
        assert!(read.len() == count && read.iter().all(|value| value.is_empty()));
    }
}

/// The code of `a` is 00011 (RFC 7541, appendix B), so the codes of eight of them are these five bytes.
#[test]
fn a_limit_above_16_bits_is_exact() {
    let text = [0x18, 0xc6, 0x31, 0x8c, 0x63].repeat(10_000);
    // The literal begins with the flag H and the length 50,000, which is 127 and then 49,873 in groups of seven bits.
    let literal = [&[0xff, 0xd1, 0x85, 0x03], &text[..]].concat();
    for (limit, fits) in [(79_999, false), (80_000, true), (80_001, true), (usize::MAX, true)] {
        let mut cursor = Octets::with_slice(&text);
        let read = cursor.try_get_huffman_decoded_with_max_length(limit);
        assert_eq!(read.is_ok_and(|value| value == [b'a'; 80_000]), fits, "{limit}");
        let mut cursor = Octets::with_slice(&text);
        let read = cursor.try_get_huffman_decoded_counted(limit, &mut Steps::new());
        assert_eq!(read.is_ok_and(|value| value == [b'a'; 80_000]), fits, "{limit}");
        let read = Octets::with_slice(&literal).get_string(limit);
        assert_eq!(read.is_ok_and(|value| value == [b'a'; 80_000]), fits, "{limit}");
        let read = Octets::with_slice(&literal).get_strings(limit);
        assert_eq!(read.is_ok_and(|list| list == [[b'a'; 80_000]]), fits, "{limit}");
    }
    let read = Octets::with_slice(&text).try_get_huffman_decoded();
    assert_eq!(read.unwrap(), [b'a'; 80_000]);
}

/// A sink and its error need to implement no other trait: those of this test aren't `Send`, `Debug` or `'static`, and the
/// sink isn't `Unpin`.
#[test]
fn any_sink_gets_a_literal() {
    use std::{
        cell::{Cell, RefCell},
        marker::PhantomPinned,
        rc::Rc,
    };
    struct Bare<'a>(#[expect(dead_code, reason = "it has no other use")] Rc<Cell<&'a str>>);
    struct Local<'a>(&'a RefCell<Vec<u8>>, Rc<Cell<&'a str>>, PhantomPinned);
    impl<'a> OctetsWriter for Local<'a> {
        type Error = Bare<'a>;
        fn put_bytes(&mut self, v: &[u8]) -> Result<(), Bare<'a>> {
            if v.contains(&0) {
                return Err(Bare(Rc::clone(&self.1)));
            }
            self.0.borrow_mut().extend_from_slice(v);
            Ok(())
        }
    }
    let bytes = RefCell::new(Vec::new());
    let why = String::from("a zero");
    let mut sink = Local(&bytes, Rc::new(Cell::new(&why)), PhantomPinned);
    assert!(put_string::<false, _>(&mut sink, b"A\n").is_ok());
    assert!(put_string::<false, _>(&mut sink, &[0]).is_err());
    assert_eq!(*bytes.borrow(), *b"\x02A\n\x01");
}

/// A parser that takes the verified cursor reads and writes the same bytes at the same offset, and fails with the same
/// error.
#[test]
fn a_verified_cursor_is_lent() {
    let mut bytes = [1, 2, 3];
    let mut cursor = OctetsMut::with_slice(&mut bytes);
    assert_eq!(cursor.get_u8(), Ok(1));
    let lent: &mut verified::OctetsMut<'_> = cursor.verified();
    assert_eq!((lent.off(), lent.cap()), (1, 2));
    lent.put_u16(0x0405).unwrap();
    assert_eq!(lent.get_u8(), Err(octets::BufferTooShortError));
    assert_eq!((cursor.off(), cursor.buf()), (3, &[1, 4, 5][..]));
    let mut cursor = Octets::with_slice(&[6, 7]);
    assert_eq!(cursor.verified().get_u8(), Ok(6));
    assert_eq!((cursor.off(), cursor.get_u8()), (1, Ok(7)));
}

#[test]
fn a_cursor_becomes_the_verified_one_and_back() {
    let mut cursor = Octets::with_slice(&[6, 7]);
    cursor.skip(1).unwrap();
    let cursor = verified::Octets::from(cursor);
    assert_eq!((cursor.off(), cursor.buf()), (1, &[6, 7][..]));
    let mut cursor = Octets::from(cursor);
    assert_eq!((cursor.off(), cursor.get_u8()), (1, Ok(7)));
    let mut bytes = [1, 2, 3];
    let mut cursor = OctetsMut::with_slice(&mut bytes);
    cursor.put_u8(9).unwrap();
    let cursor = verified::OctetsMut::from(cursor);
    assert_eq!((cursor.off(), cursor.buf()), (1, &[9, 2, 3][..]));
    let mut cursor = OctetsMut::from(cursor);
    cursor.put_u16(0x0809).unwrap();
    assert_eq!(bytes, [9, 8, 9]);
}

#[test]
fn a_clone_reads_on_from_the_same_byte() {
    let bytes: Vec<u8> = (0..9).collect();
    for off in 0..=bytes.len() {
        let mut cursor = Octets::with_slice(&bytes);
        cursor.skip(off).unwrap();
        let mut clone = cursor.clone();
        assert_eq!((clone.off(), clone.buf(), clone.remaining()), (off, &bytes[..], &bytes[off..]));
        assert_eq!(clone.get_u8().ok(), bytes.get(off).copied());
        assert_eq!((cursor.off(), cursor.cap(), cursor.remaining()), (off, bytes.len() - off, &bytes[off..]));
    }
}

/// The codes of `0` have five bits, so zero bytes are as many as possible of them.
#[test]
fn the_greatest_length_of_a_value_is_reached() {
    for len in 0..=40 {
        let zeros = 8 * len / 5;
        let mut encoding = vec![0xff; len];
        OctetsMut::with_slice(&mut encoding).put_huffman_encoded::<false>(&vec![b'0'; zeros]).unwrap();
        assert_eq!(Octets::with_slice(&encoding).get_huffman_decoded().unwrap().len(), zeros);
        assert_eq!(huffman_decoded_len_max(len), zeros);
    }
    assert_eq!(huffman_decoded_len_max(usize::MAX / 8 * 5), usize::MAX / 8 * 8);
    assert_eq!(huffman_decoded_len_max(usize::MAX), usize::MAX);
}
