//! Tests of the feature `more`, whose calls return an error if an allocation fails.
use crate::refusing::{failing_after, refused_bytes};
use octets::more::*;
use octets::{Octets, OctetsMut, OctetsWriter};

/// The encoding of "aaaa": four codes of five bits, and four one bits that fill the last byte.
const TEXT: [u8; 3] = [0x18, 0xc6, 0x3f];

#[test]
fn a_copy_fails() {
    let cursor = Octets::with_slice(b"abc");
    assert_eq!(failing_after(0, || cursor.try_to_vec()), (Err(AllocError), true));
    let mut bytes = *b"abc";
    let cursor = OctetsMut::with_slice(&mut bytes);
    assert_eq!(failing_after(0, || cursor.try_to_vec()), (Err(AllocError), true));
    assert_eq!(failing_after(1, || cursor.try_to_vec()), (Ok(b"abc".to_vec()), false));
}

#[test]
fn a_decode_fails_and_leaves_the_offset() {
    let mut cursor = Octets::with_slice(&TEXT);
    let memory = Err(DecodeError::Memory(AllocError));
    assert_eq!(failing_after(0, || cursor.try_get_huffman_decoded()), (memory.clone(), true));
    let limited = || cursor.try_get_huffman_decoded_with_max_length(4);
    assert_eq!(failing_after(0, limited), (memory.clone(), true));
    let mut steps = Steps::new();
    let counted = || cursor.try_get_huffman_decoded_counted(4, &mut steps);
    assert_eq!(failing_after(0, counted), (memory, true));
    assert_eq!((cursor.off(), steps.count()), (0, 0));
    assert_eq!(cursor.try_get_huffman_decoded().unwrap(), b"aaaa");
}

/// A decode whose allocation fails leaves the count unchanged.
#[test]
fn a_decode_that_gets_no_memory_counts_no_steps() {
    let mut steps = Steps::new();
    let mut cursor = Octets::with_slice(&TEXT);
    cursor.try_get_huffman_decoded_counted(9, &mut steps).unwrap();
    let before = steps.count();
    assert!(before > 0);
    let mut cursor = Octets::with_slice(&TEXT);
    let (value, _) = failing_after(0, || cursor.try_get_huffman_decoded_counted(9, &mut steps));
    assert_eq!((value, steps.count()), (Err(DecodeError::Memory(AllocError)), before));
}

/// If no byte remains, a copy reserves no memory.
#[test]
fn an_empty_copy_takes_no_memory() {
    let copy = failing_after(0, || Octets::with_slice(b"").try_to_vec());
    assert_eq!(copy, (Ok(vec![]), false));
    let mut bytes = *b"a";
    let mut cursor = OctetsMut::with_slice(&mut bytes);
    cursor.skip(1).unwrap();
    assert_eq!(failing_after(0, || cursor.try_to_vec()), (Ok(vec![]), false));
}

/// A decode reserves two bytes for each byte that remains, or the limit if that is less. Neither number is cut to 32
/// bits.
#[cfg(target_pointer_width = "64")]
#[test]
fn a_huge_decode_reserves_what_its_value_may_have() {
    let Some(text) = crate::huge_zeros() else {
        return;
    };
    let len = text.len();
    let memory = Err(DecodeError::Memory(AllocError));
    let (value, _) = failing_after(0, || Octets::with_slice(&text).try_get_huffman_decoded());
    assert_eq!((value, refused_bytes()), (memory.clone(), 2 * len));
    for limit in [1 << 20, 1 << 32, len] {
        let mut cursor = Octets::with_slice(&text);
        let decode = || cursor.try_get_huffman_decoded_with_max_length(limit);
        assert_eq!((failing_after(0, decode).0, refused_bytes()), (memory.clone(), limit));
        let decode = || cursor.try_get_huffman_decoded_counted(limit, &mut Steps::new());
        assert_eq!((failing_after(0, decode).0, refused_bytes()), (memory.clone(), limit));
    }
}

#[test]
fn a_slice_takes_no_memory() {
    let mut out = [0; 4];
    let decode = || Octets::with_slice(&TEXT).get_huffman_decoded_into(&mut out);
    assert_eq!(failing_after(0, decode), (Ok(4), false));
    let read = || Octets::with_slice(b"\x02ab").get_string_into(&mut out);
    assert_eq!(failing_after(0, read), (Ok(2), false));
    let mut room = [0; 9];
    let write = || OctetsMut::with_slice(&mut room).put_string::<true>(b"AAAA");
    assert_eq!(failing_after(0, write), (Ok(()), false));
}

#[test]
fn a_literal_fails_and_leaves_the_offset() {
    for bytes in [&b"\x02ab"[..], &b"\x83\x18\xc6\x3f"[..]] {
        let mut cursor = Octets::with_slice(bytes);
        let read = failing_after(0, || cursor.get_string(9));
        assert_eq!((read, cursor.off()), ((Err(LiteralError::OutOfMemory), true), 0));
    }
}

/// Makes each allocation of a list of two values fail, one at a time: those of the two values, that of the verified
/// list, and that of the list that is returned. If that of a value fails, the offset is before its literal, and otherwise
/// after the literal that was read last.
#[test]
fn a_list_of_literals_fails_at_each_allocation() {
    let bytes = b"\x02ab\x83\x18\xc6\x3f";
    let mut offsets = vec![];
    loop {
        let mut cursor = Octets::with_slice(bytes);
        let (read, failed) = failing_after(offsets.len(), || cursor.get_strings(9));
        if !failed {
            assert_eq!(read.unwrap(), [&b"ab"[..], b"aaaa"]);
            break;
        }
        assert_eq!(read, Err(LiteralError::OutOfMemory), "{offsets:?}");
        offsets.push(cursor.off());
    }
    assert_eq!(offsets, [0, 3, 3, 7]);
}

/// A result keeps the memory that it was read into. Shrinking it would be another allocation, which could fail.
#[test]
fn a_read_takes_memory_once() {
    type Read<'a> = (&'a dyn Fn() -> Option<Vec<u8>>, usize);
    let read: [Read<'_>; 7] = [
        (&|| Octets::with_slice(&TEXT).try_get_huffman_decoded().ok(), 6),
        (&|| Octets::with_slice(&TEXT).try_get_huffman_decoded_with_max_length(5).ok(), 5),
        (&|| Octets::with_slice(&TEXT).try_get_huffman_decoded_counted(9, &mut Steps::new()).ok(), 6),
        (&|| Octets::with_slice(&TEXT).try_get_huffman_decoded_counted(4, &mut Steps::new()).ok(), 4),
        (&|| Octets::with_slice(b"\x83\x18\xc6\x3f").get_string(9).ok(), 6),
        (&|| Octets::with_slice(b"\x83\x18\xc6\x3f").get_string(4).ok(), 4),
        (&|| Octets::with_slice(b"\x04aaaa").get_string(9).ok(), 4),
    ];
    for (at, (call, capacity)) in read.into_iter().enumerate() {
        let (value, failed) = failing_after(1, call);
        let value = value.unwrap();
        assert_eq!((&value[..], value.capacity(), failed), (&b"aaaa"[..], capacity, false), "{at}");
    }
}

/// A literal with this flag and so many bytes of data, each of which is this byte (RFC 7541, sections 5.1 and 5.2).
fn literal(flag: u8, len: usize, byte: u8) -> Vec<u8> {
    let mut bytes = vec![flag | len.min(127) as u8];
    let mut rest = len - len.min(127);
    while len >= 127 && rest >= 128 {
        bytes.push(rest as u8 | 128);
        rest /= 128;
    }
    bytes.extend((len >= 127).then_some(rest as u8));
    bytes.resize(bytes.len() + len, byte);
    bytes
}

/// A literal of each size is read once: a second read would take the memory of its value once more. The byte f8 is the
/// code of `&`.
#[test]
fn a_long_literal_takes_memory_once() {
    for len in [126, 127, 5001, 70_001, 2_000_000] {
        for (flag, read_byte) in [(0, 0xf8), (0x80, b'&')] {
            let bytes = literal(flag, len, 0xf8);
            let mut cursor = Octets::with_slice(&bytes);
            let (value, failed) = failing_after(1, || cursor.get_string(len));
            assert_eq!((value.unwrap() == vec![read_byte; len], failed, cursor.cap()), (true, false, 0), "{len}");
        }
    }
}

/// If a vector has enough capacity for a piece, it allocates nothing, whatever the length of the piece.
#[test]
fn a_vector_with_room_takes_no_memory() {
    for len in 0..300 {
        let mut bytes = Vec::new();
        bytes.reserve_exact(len);
        let piece = vec![7; len];
        let (put, failed) = failing_after(0, || OctetsWriter::put_bytes(&mut bytes, &piece));
        assert_eq!((put, failed, &bytes, bytes.capacity()), (Ok(()), false, &piece, len));
    }
    // With no capacity, one allocation suffices.
    for len in [1, 4097, 70_001] {
        let (mut bytes, piece) = (Vec::new(), vec![7; len]);
        let (put, failed) = failing_after(1, || OctetsWriter::put_bytes(&mut bytes, &piece));
        assert_eq!((put, failed, bytes == piece), (Ok(()), false, true));
    }
}

#[test]
fn a_vector_that_gets_no_memory_is_unchanged() {
    let mut bytes = Vec::new();
    bytes.reserve_exact(2);
    let (put, failed) = failing_after(0, || OctetsWriter::put_bytes(&mut bytes, b"abc"));
    assert_eq!((put, failed, &bytes[..]), (Err(AllocError), true, &b""[..]));
    let (put, failed) = failing_after(0, || OctetsWriter::put_bytes(&mut bytes, b"ab"));
    assert_eq!((put, failed, &bytes[..]), (Ok(()), false, &b"ab"[..]));
    let (put, failed) = failing_after(0, || put_string::<false, _>(&mut bytes, b"ab"));
    assert_eq!((put, failed, &bytes[..]), (Err(AllocError), true, &b"ab"[..]));
    // A Huffman encoding is appended in pieces, and the first of them needs an allocation, which fails.
    assert!(failing_after(0, || bytes.put_huffman_encoded::<false>(b"aaaaa")).1);
}

/// A number is one call of the vector, so it needs one allocation at most. If that fails, no byte of the number is written.
#[test]
fn a_number_that_gets_no_memory_writes_nothing() {
    type Write = fn(&mut Vec<u8>) -> Result<(), AllocError>;
    let writes: [(Write, usize); 9] = [
        (|bytes| bytes.write_u8(7), 1),
        (|bytes| bytes.write_u16(7), 2),
        (|bytes| bytes.write_u24(7), 3),
        (|bytes| bytes.write_u32(7), 4),
        (|bytes| bytes.write_u64(7), 8),
        (|bytes| bytes.write_varint(64), 2),
        (|bytes| bytes.write_varint(1 << 14), 4),
        (|bytes| bytes.write_varint_with_len(7, 8), 8),
        (|bytes| bytes.write_bytes_with_varint_length(b""), 1),
    ];
    for (write, len) in writes {
        for room in 0..len {
            let mut bytes = Vec::new();
            bytes.reserve_exact(room);
            assert_eq!((failing_after(0, || write(&mut bytes)), bytes.len()), ((Err(AllocError), true), 0));
            assert_eq!((failing_after(1, || write(&mut bytes)), bytes.len()), ((Ok(()), false), len));
        }
        let mut bytes = Vec::new();
        bytes.reserve_exact(len);
        assert_eq!((failing_after(0, || write(&mut bytes)), bytes.len()), ((Ok(()), false), len));
    }
    let mut bytes = Vec::new();
    bytes.reserve_exact(2);
    let (put, failed) = failing_after(0, || bytes.write_bytes_with_varint_length(b"ab"));
    assert_eq!((put, failed, &bytes[..]), (Err(AllocError), true, &b"\x02"[..]));
}
