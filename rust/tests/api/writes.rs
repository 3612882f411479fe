//! Tests of the calls that write, and of those that lend a part of the buffer for writing.
use octets::{BufferTooShortError, MAX_VAR_INT, Octets, OctetsMut, OctetsWriter};

#[test]
fn numbers_are_written_in_network_order() {
    let mut bytes = [0xee; 19];
    let mut b = OctetsMut::with_slice(&mut bytes);
    assert_eq!(b.put_u8(1).unwrap(), [1]);
    assert_eq!(b.put_u16(0x0203).unwrap(), [2, 3]);
    assert_eq!(b.put_u24(0xff04_0506).unwrap(), [4, 5, 6]);
    assert_eq!(b.put_u32(0x0708_090a).unwrap(), [7, 8, 9, 10]);
    assert_eq!(b.put_u64(0x0b0c_0d0e_0f10_1112).unwrap(), [11, 12, 13, 14, 15, 16, 17, 18]);
    assert_eq!((b.off(), b.cap()), (18, 1));
    assert!(b.put_u16(0).is_err() && b.put_u24(0).is_err());
    assert!(b.put_u32(0).is_err() && b.put_u64(0).is_err());
    assert_eq!((b.off(), b.buf()[18]), (18, 0xee));
    b.put_u8(0).unwrap();
    assert!(b.put_u8(0).is_err());
}

/// Each number has one bit, or all bits but one.
#[test]
fn each_single_bit_is_written() {
    macro_rules! kept {
        ($width:expr, $put:ident, $number:ty) => {
            for bit in 0..8 * $width {
                let all = (1_u128 << (8 * $width)) - 1;
                for number in [1_u128 << bit, all ^ (1 << bit)] {
                    let mut bytes = [0x5a; $width];
                    let mut b = OctetsMut::with_slice(&mut bytes);
                    b.$put(number as $number).unwrap();
                    assert_eq!(bytes, number.to_be_bytes()[16 - $width..]);
                }
            }
        };
    }
    kept!(1, put_u8, u8);
    kept!(2, put_u16, u16);
    kept!(3, put_u24, u32);
    kept!(4, put_u32, u32);
    kept!(8, put_u64, u64);
}

/// The values of each width have one bit, or all bits but one. The width is the least that has room for the value.
#[test]
fn varints_keep_each_single_bit() {
    for bits in [6, 14, 30, 62] {
        for bit in 0..bits {
            for value in [1_u64 << bit, ((1 << bits) - 1) ^ (1 << bit)] {
                let (width, mark) = match value {
                    0..=0x3f => (1, 0),
                    0x40..=0x3fff => (2, 0x40),
                    0x4000..=0x3fff_ffff => (4, 0x80),
                    _ => (8, 0xc0),
                };
                let mut wanted = value.to_be_bytes()[8 - width..].to_vec();
                wanted[0] |= mark;
                let mut bytes = vec![0; width];
                let mut b = OctetsMut::with_slice(&mut bytes);
                b.put_varint(value).unwrap();
                assert_eq!(bytes, wanted);
                assert_eq!(Octets::with_slice(&bytes).get_varint(), Ok(value));
                let mut b = OctetsMut::with_slice(&mut bytes);
                b.put_varint_with_len(value, width).unwrap();
                assert_eq!(OctetsMut::with_slice(&mut bytes).get_varint(), Ok(value));
            }
        }
    }
}

#[test]
fn varints_are_written_in_their_least_width() {
    let rows: [(u64, &[u8]); 6] = [
        (37, &[0x25]),
        (63, &[0x3f]),
        (64, &[0x40, 0x40]),
        (15_293, &[0x7b, 0xbd]),
        (494_878_333, &[0x9d, 0x7f, 0x3e, 0x7d]),
        (MAX_VAR_INT, &[0xff; 8]),
    ];
    for (value, wanted) in rows {
        let mut bytes = [0; 8];
        let mut b = OctetsMut::with_slice(&mut bytes[..wanted.len()]);
        assert_eq!(b.put_varint(value).unwrap(), wanted);
        assert!(b.put_varint(value).is_err());
        let mut b = OctetsMut::with_slice(&mut bytes[..wanted.len() - 1]);
        assert_eq!(b.put_varint(value).err(), Some(BufferTooShortError));
    }
}

#[test]
#[should_panic]
fn no_varint_holds_more_than_62_bits() {
    let _ = OctetsMut::with_slice(&mut [0; 8]).put_varint(MAX_VAR_INT + 1);
}

#[test]
fn a_varint_may_be_wider_than_its_value_needs() {
    for (width, wanted) in [(1, &[0x25][..]), (2, &[0x40, 0x25]), (4, &[0x80, 0, 0, 0x25])] {
        let mut bytes = [0; 8];
        let mut b = OctetsMut::with_slice(&mut bytes);
        assert_eq!(b.put_varint_with_len(37, width).unwrap(), wanted);
        assert_eq!(Octets::with_slice(&bytes).get_varint(), Ok(37));
    }
}

/// As `octets` 0.3.7 does, the call writes the lowest bytes of the value, and sets the bits of the width in the first
/// of them.
#[test]
fn a_value_that_its_width_does_not_hold_loses_bits() {
    let mut bytes = [0; 16];
    let mut b = OctetsMut::with_slice(&mut bytes);
    assert_eq!(b.put_varint_with_len(0x1_ff, 1).unwrap(), [0xff]);
    assert_eq!(b.put_varint_with_len(0x12_3456, 2).unwrap(), [0x74, 0x56]);
    assert_eq!(b.put_varint_with_len(1 << 62, 4).unwrap(), [0x80, 0, 0, 0]);
    assert_eq!(b.put_varint_with_len((1 << 63) + 5, 8).unwrap(), [0xc0, 0, 0, 0, 0, 0, 0, 5]);
    assert!(b.put_varint_with_len(u64::MAX, 8).is_err());
    assert_eq!(b.off(), 15);
}

#[test]
fn room_is_asked_for_before_the_width() {
    let mut bytes = [0; 2];
    assert!(OctetsMut::with_slice(&mut bytes).put_varint_with_len(0, 3).is_err());
}

#[test]
#[should_panic(expected = "value is too large for varint")]
fn no_varint_has_three_bytes() {
    let _ = OctetsMut::with_slice(&mut [0; 8]).put_varint_with_len(0, 3);
}

#[test]
fn bytes_are_written_whole_or_not_at_all() {
    let mut bytes = *b"......";
    let mut b = OctetsMut::with_slice(&mut bytes);
    assert_eq!(OctetsWriter::put_bytes(&mut b, b"abcdefg"), Err(BufferTooShortError));
    b.put_bytes(b"abc").unwrap();
    assert_eq!(b.put_bytes(b"defg"), Err(BufferTooShortError));
    b.put_bytes(b"").unwrap();
    OctetsWriter::put_bytes(&mut b, b"de").unwrap();
    assert_eq!(b.off(), 5);
    assert_eq!(bytes, *b"abcde.");
    let long: Vec<u8> = (0..5000).map(|at| at as u8).collect();
    let mut bytes = vec![0; 5000];
    OctetsWriter::put_bytes(&mut OctetsMut::with_slice(&mut bytes), &long).unwrap();
    assert_eq!(bytes, long);
}

#[test]
fn parts_of_a_buffer_are_lent() {
    let mut bytes = [0; 6];
    let mut b = OctetsMut::with_slice(&mut bytes);
    b.put_u8(1).unwrap();
    b.peek_bytes_mut(2).unwrap().put_u16(0x0203).unwrap();
    assert_eq!(b.off(), 1);
    b.get_bytes_mut(2).unwrap().put_u8(4).unwrap();
    assert_eq!(b.off(), 3);
    assert!(b.get_bytes_mut(4).is_err() && b.peek_bytes_mut(4).is_err());
    {
        let (mut head, mut tail) = b.split_at(4).unwrap();
        assert_eq!((head.len(), head.off(), tail.len(), tail.off()), (4, 0, 2, 0));
        head.put_u8(9).unwrap();
        tail.put_u16(0x0506).unwrap();
    }
    assert!(b.split_at(7).is_err());
    b.as_mut()[0] = 7;
    assert_eq!(bytes, [9, 4, 3, 7, 5, 6]);
}

#[test]
fn slices_are_of_what_remains() {
    let mut bytes = *b"abcdef";
    let mut b = OctetsMut::with_slice(&mut bytes);
    b.skip(2).unwrap();
    b.slice(2).unwrap().copy_from_slice(b"xy");
    let mut b = OctetsMut::with_slice(&mut bytes);
    b.skip(2).unwrap();
    b.slice_last(1).unwrap()[0] = b'z';
    assert_eq!(bytes, *b"abxyez");
    for len in [0, 4, 5] {
        let mut b = OctetsMut::with_slice(&mut bytes);
        b.skip(2).unwrap();
        assert_eq!(b.slice(len).is_ok(), len <= 4);
        let mut b = OctetsMut::with_slice(&mut bytes);
        b.skip(2).unwrap();
        assert_eq!(b.slice_last(len).is_ok(), len <= 4);
    }
}

/// No bytes fit at the end of a buffer too, and in a buffer that has none.
#[test]
fn no_bytes_always_fit() {
    for len in [0, 1, 5] {
        let mut bytes = vec![0xee; len];
        let mut b = OctetsMut::with_slice(&mut bytes);
        b.skip(len).unwrap();
        assert_eq!((b.put_bytes(b""), b.off()), (Ok(()), len));
        assert_eq!((OctetsWriter::put_bytes(&mut b, b""), b.off()), (Ok(()), len));
        assert_eq!(b.get_bytes(0).map(|view| view.len()), Ok(0));
        assert_eq!(b.get_bytes_mut(0).map(|view| view.len()), Ok(0));
        assert_eq!((b.skip(0), b.rewind(0), b.off()), (Ok(()), Ok(()), len));
    }
}

/// A width is compared as a whole: its lowest eight bits may be those of a width that a varint has.
#[test]
fn a_width_is_not_cut() {
    let mut bytes = [0; 9];
    for len in [257, 258, 260, 264, (1 << 32) + 1] {
        assert!(OctetsMut::with_slice(&mut bytes).put_varint_with_len(1, len).is_err());
    }
}

/// The trait's call writes a long value whole.
#[test]
fn a_long_value_is_written_by_the_trait() {
    let (value, mut bytes) = (vec![7; 200_000], vec![0; 200_000]);
    OctetsWriter::put_bytes(&mut OctetsMut::with_slice(&mut bytes), &value).unwrap();
    assert!(bytes == value);
}
