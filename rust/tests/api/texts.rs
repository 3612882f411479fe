//! Tests of the Huffman code. The examples are those of RFC 7541, appendix C.
#![cfg(feature = "huffman_hpack")]
use octets::{BufferTooShortError, Octets, OctetsMut, OctetsWriter, huffman_encoding_len};

const ROWS: [(&[u8], &[u8]); 6] = [
    (b"www.example.com", &[0xf1, 0xe3, 0xc2, 0xe5, 0xf2, 0x3a, 0x6b, 0xa0, 0xab, 0x90, 0xf4, 0xff]),
    (b"no-cache", &[0xa8, 0xeb, 0x10, 0x64, 0x9c, 0xbf]),
    (b"custom-key", &[0x25, 0xa8, 0x49, 0xe9, 0x5b, 0xa9, 0x7d, 0x7f]),
    (b"custom-value", &[0x25, 0xa8, 0x49, 0xe9, 0x5b, 0xb8, 0xe8, 0xb4, 0xbf]),
    (b"302", &[0x64, 0x02]),
    (b"", &[]),
];

/// A sink that records the size of each piece, and fails at the first piece with which it would have more than `room`
/// bytes.
struct Sink {
    bytes: Vec<u8>,
    sizes: Vec<usize>,
    room: usize,
}

impl Sink {
    fn new(room: usize) -> Sink {
        Sink { bytes: Vec::new(), sizes: Vec::new(), room }
    }
}

impl OctetsWriter for Sink {
    type Error = &'static str;

    fn put_bytes(&mut self, v: &[u8]) -> Result<(), Self::Error> {
        if self.bytes.len() + v.len() > self.room {
            return Err("full");
        }
        self.bytes.extend_from_slice(v);
        self.sizes.push(v.len());
        Ok(())
    }
}

#[test]
fn texts_are_written_and_read_back() {
    for (value, text) in ROWS {
        assert_eq!(huffman_encoding_len::<false>(value), Ok(text.len()));
        let mut bytes = vec![0xee; text.len() + 1];
        let mut b = OctetsMut::with_slice(&mut bytes);
        b.put_huffman_encoded::<false>(value).unwrap();
        assert_eq!(b.off(), text.len());
        assert_eq!(bytes, [text, &[0xee][..]].concat());
        let mut b = Octets::with_slice(text);
        assert_eq!(b.get_huffman_decoded().unwrap(), value);
        assert_eq!(b.cap(), 0);
    }
}

/// A sink gets a piece of eight bytes for each 64 bits, then one of four bytes if at least four are left, and then
/// single bytes. The code of "a" has five bits.
#[test]
fn a_sink_gets_its_pieces() {
    let rows: [(usize, &[usize]); 8] = [
        (0, &[]),
        (1, &[1]),
        (4, &[1, 1, 1]),
        (5, &[4]),
        (7, &[4, 1]),
        (12, &[4, 1, 1, 1, 1]),
        (13, &[8, 1]),
        (64, &[8, 8, 8, 8, 8]),
    ];
    for (count, sizes) in rows {
        let mut sink = Sink::new(usize::MAX);
        sink.put_huffman_encoded::<false>(&vec![b'a'; count]).unwrap();
        assert_eq!(sink.sizes, sizes, "{count}");
    }
}

/// Returns the encoding of a value if it has at most `room` bytes. A cursor and a sink of this size have to get the
/// same bytes.
fn text_by_both<const LOWER_CASE: bool>(value: &[u8], room: usize) -> Option<Vec<u8>> {
    let mut sink = Sink::new(room);
    let taken = sink.put_huffman_encoded::<LOWER_CASE>(value);
    let mut bytes = vec![0; room];
    let mut b = OctetsMut::with_slice(&mut bytes);
    let written = OctetsWriter::put_huffman_encoded::<LOWER_CASE>(&mut b, value);
    assert_eq!(taken.is_ok(), written.is_ok());
    assert_eq!(sink.bytes, b.buf()[..b.off()]);
    taken.ok().map(|()| sink.bytes)
}

/// The code of `a` is 00011 (RFC 7541, appendix B), so the codes of eight of them are these five bytes.
#[test]
fn values_above_a_mebibyte_are_encoded_whole() {
    let count = (1 << 17) + 1;
    let text = [0x18, 0xc6, 0x31, 0x8c, 0x63].repeat(count);
    let mut bytes = vec![0; text.len()];
    let mut b = OctetsMut::with_slice(&mut bytes);
    b.put_huffman_encoded::<false>(&vec![b'a'; 8 * count]).unwrap();
    assert_eq!((b.cap(), b.buf() == text), (0, true));
    assert!(text_by_both::<false>(&vec![b'a'; 8 * count], text.len()).is_some_and(|taken| taken == text));
    assert!(text_by_both::<true>(&vec![b'A'; 8 * count], text.len()).is_some_and(|taken| taken == text));
    assert!(text_by_both::<true>(&vec![b'A'; 8 * count], text.len() - 1).is_none());
}

/// The first code has ten bits and each other code has five, so a second call for the rest of the value would begin
/// within a byte.
#[test]
fn a_long_value_is_encoded_as_one() {
    // A build without optimization takes a second for each MiB.
    let longest = if cfg!(debug_assertions) { 1 } else { 5 };
    for len in [300, 4099, 70_001, (longest << 20) + 3] {
        let mut value = vec![b'a'; len];
        value[0] = b'?';
        let text_len = (10 + 5 * (len - 1)).div_ceil(8);
        let text = text_by_both::<false>(&value, text_len).unwrap();
        assert!(text.len() == text_len && decoded(&text) == value, "{len}");
    }
}

fn decoded(text: &[u8]) -> Vec<u8> {
    Octets::with_slice(text).get_huffman_decoded().unwrap()
}

#[test]
fn a_cursor_and_a_sink_get_the_same() {
    let mut seed = 1u64;
    for round in 0..2000 {
        let value: Vec<u8> = (0..round % 67)
            .map(|_| {
                seed = seed.wrapping_mul(6_364_136_223_846_793_005).wrapping_add(1);
                if round % 2 == 0 { (seed >> 56) as u8 } else { b"aeIOst-/"[(seed >> 61) as usize] }
            })
            .collect();
        for room in [0, 3, 8, 11, 20, 300] {
            if let Some(text) = text_by_both::<false>(&value, room) {
                assert_eq!(decoded(&text), value);
            }
            if let Some(text) = text_by_both::<true>(&value, room) {
                assert_eq!(decoded(&text), value.to_ascii_lowercase());
            }
        }
    }
}

#[test]
fn the_first_refusal_of_a_sink_ends_an_encode() {
    let mut sink = Sink::new(9);
    assert_eq!(sink.put_huffman_encoded::<false>(&[b'a'; 29]), Err("full"));
    assert_eq!(sink.sizes, [8]);
}

#[test]
fn a_text_that_does_not_fit_is_written_up_to_a_piece() {
    let mut bytes = [0xee; 10];
    let mut b = OctetsMut::with_slice(&mut bytes);
    assert_eq!(b.put_huffman_encoded::<false>(&[b'a'; 29]), Err(BufferTooShortError));
    assert_eq!(b.off(), 8);
    assert_eq!(bytes[8..], [0xee; 2]);
}

/// The code of "a" has five bits, wherever it is in the value.
#[test]
fn long_values_have_their_lengths() {
    for len in (0..40_usize).chain(4080..4120).chain([65_535, 65_536, 100_003]) {
        let wanted = (5 * len).div_ceil(8);
        assert_eq!(huffman_encoding_len::<false>(&vec![b'a'; len]), Ok(wanted));
        assert_eq!(huffman_encoding_len::<true>(&vec![b'A'; len]), Ok(wanted));
        let mut bytes = vec![0; wanted];
        let mut b = OctetsMut::with_slice(&mut bytes);
        b.put_huffman_encoded::<true>(&vec![b'A'; len]).unwrap();
        assert_eq!(b.off(), wanted);
        let mut b = Octets::with_slice(&bytes);
        assert_eq!(b.get_huffman_decoded(), Ok(vec![b'a'; len]));
        let mut b = Octets::with_slice(&bytes);
        assert_eq!(b.get_huffman_decoded_with_max_length(len), Ok(vec![b'a'; len]));
        let mut b = Octets::with_slice(&bytes);
        assert_eq!(b.get_huffman_decoded_with_max_length(len.wrapping_sub(1)).is_ok(), len == 0);
    }
}

/// A decode reserves two bytes for each byte of the encoding, or the limit if that is less. It reserves no more later:
/// the shortest code of RFC 7541 has five bits, so a value has fewer than two bytes for each byte of its encoding.
#[test]
fn a_decode_reserves_once() {
    for (len, limit) in [(1, 9), (8, 9), (100, 100), (100, 1000), (5000, usize::MAX)] {
        let mut bytes = vec![0; len];
        OctetsMut::with_slice(&mut bytes).put_huffman_encoded::<false>(&vec![b'a'; len]).unwrap();
        bytes.truncate((5 * len).div_ceil(8));
        let value = Octets::with_slice(&bytes).get_huffman_decoded_with_max_length(limit).unwrap();
        assert_eq!(value.capacity(), (2 * bytes.len()).min(limit), "{len} {limit}");
    }
}

/// The code of "A" has six bits, and that of "a" has five.
#[test]
fn each_call_that_encodes_keeps_its_case() {
    fn encoded<const LOWER_CASE: bool>(by_trait: bool) -> Vec<u8> {
        let mut bytes = [0; 9];
        let mut b = OctetsMut::with_slice(&mut bytes);
        match by_trait {
            true => OctetsWriter::put_huffman_encoded::<LOWER_CASE>(&mut b, b"AAAAAAAA").unwrap(),
            false => b.put_huffman_encoded::<LOWER_CASE>(b"AAAAAAAA").unwrap(),
        }
        let end = b.off();
        bytes[..end].to_vec()
    }
    for by_trait in [false, true] {
        assert_eq!(decoded(&encoded::<false>(by_trait)), b"AAAAAAAA");
        assert_eq!(decoded(&encoded::<true>(by_trait)), b"aaaaaaaa");
    }
}

/// After an error the offset is after the byte at which the decoder found it, wherever the encoding begins. The decoder
/// doesn't read the bytes after that one.
#[test]
fn a_failed_decode_leaves_the_offset_where_it_failed() {
    for (text, limit, read) in [
        // The code of the fourth "a" ends within the third byte.
        (&[0x18, 0xc6, 0x31, 0x8c, 0x7f][..], 3, 3),
        // The code of the end, which has 30 bits, and one more byte.
        (&[0xff, 0xff, 0xff, 0xff, 0x18], 99, 4),
        // The first has eight one bits after "302", the second has zero bits at its end, the third is an incomplete
        // code.
        (&[0x64, 0x02, 0xff], 99, 3),
        (&[0x18, 0xc0], 99, 2),
        (&[0xff], 99, 1),
        (&[0x18, 0xc6, 0x31, 0x8c, 0x7f], 0, 1),
        // The code of the second "a", and that of the "2" of "302", end within the last byte.
        (&[0x18, 0xff], 1, 2),
        (&[0x64, 0x02], 2, 2),
    ] {
        for before in [0, 1, 2, 9, 100_001] {
            let bytes = [&vec![0x18; before], text].concat();
            let mut b = Octets::with_slice(&bytes);
            b.skip(before).unwrap();
            let value = b.get_huffman_decoded_with_max_length(limit);
            assert_eq!((value, b.off()), (Err(BufferTooShortError), before + read));
            if limit == 99 {
                let mut b = Octets::with_slice(&bytes);
                b.skip(before).unwrap();
                assert_eq!(b.get_huffman_decoded(), Err(BufferTooShortError));
                assert_eq!(b.off(), before + read);
            }
        }
    }
}

/// The error may also be far behind the start of the encoding. The code of `a` is 00011, so the codes of eight of them are
/// the five bytes that are repeated here.
#[test]
fn a_decode_that_fails_far_in_leaves_the_offset_where_it_failed() {
    for (count, last, read) in [
        // Eight one bits, and zero bits at the end.
        (14_000, &[0xff][..], 70_001),
        ((1 << 20) / 5, &[0x18, 0xc0], (1 << 20) + 1),
    ] {
        let text = [&[9, 9, 9], &[0x18, 0xc6, 0x31, 0x8c, 0x63].repeat(count)[..], last].concat();
        let mut b = Octets::with_slice(&text);
        b.skip(3).unwrap();
        assert_eq!((b.get_huffman_decoded(), b.off()), (Err(BufferTooShortError), 3 + read));
        b.rewind(read).unwrap();
        let value = b.get_huffman_decoded_with_max_length(8 * count + 9);
        assert_eq!((value, b.off()), (Err(BufferTooShortError), 3 + read));
        // The limit is passed at the last code before that.
        b.rewind(read).unwrap();
        let value = b.get_huffman_decoded_with_max_length(8 * count - 1);
        assert_eq!((value, b.off()), (Err(BufferTooShortError), 3 + 5 * count));
    }
}

/// A decode and an encode at a large offset do the same as at the start.
#[test]
fn texts_are_of_what_remains() {
    for before in [1, 300, 100_001, (1 << 20) + 1] {
        let (value, text) = ROWS[0];
        let mut bytes = vec![0xee; before + text.len() + 1];
        let mut b = OctetsMut::with_slice(&mut bytes);
        b.skip(before).unwrap();
        b.put_huffman_encoded::<true>(b"WWW.example.com").unwrap();
        assert_eq!((b.off(), b.get_u8()), (before + text.len(), Ok(0xee)));
        let mut b = Octets::with_slice(&bytes[..before + text.len()]);
        b.skip(before).unwrap();
        assert_eq!((b.get_huffman_decoded(), b.cap()), (Ok(value.to_vec()), 0));
    }
}

/// After a sink fails it isn't called again, even if another call would succeed.
#[test]
fn a_sink_is_not_asked_twice() {
    struct Once(usize);
    impl OctetsWriter for Once {
        type Error = usize;
        fn put_bytes(&mut self, _: &[u8]) -> Result<(), usize> {
            self.0 += 1;
            if self.0 == 2 { Err(self.0) } else { Ok(()) }
        }
    }
    let mut sink = Once(0);
    assert_eq!(sink.put_huffman_encoded::<false>(&[b'a'; 29]), Err(2));
    assert_eq!(sink.0, 2);
    let mut sink = Once(1);
    assert_eq!(sink.put_huffman_encoded::<true>(b"a"), Err(2));
    assert_eq!(sink.0, 2);
    let mut sink = Once(1);
    assert_eq!(sink.put_huffman_encoded::<true>(b""), Ok(()));
    assert_eq!(sink.0, 1);
}

/// The limit is a power of two, so it would be 0 in a number with too few bits.
#[test]
fn no_limit_is_cut() {
    for limit in (2..usize::BITS).map(|bits| 1 << bits) {
        let mut b = Octets::with_slice(&[0x64, 0x02]);
        assert_eq!(b.get_huffman_decoded_with_max_length(limit), Ok(b"302".to_vec()));
    }
}
