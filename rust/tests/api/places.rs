//! Bytes that a call returns are those of the buffer, and not equal bytes elsewhere. The proofs don't say so of bytes
//! that are only read.
use octets::{Octets, OctetsMut};

/// Where these bytes begin, in bytes after `start`, and how many there are. Where an empty slice is says nothing.
fn place(start: *const u8, bytes: &[u8]) -> (usize, usize) {
    if bytes.is_empty() { (0, 0) } else { ((bytes.as_ptr() as usize).wrapping_sub(start as usize), bytes.len()) }
}

/// Calls `seen` with each buffer of up to nine equal bytes, each offset of a cursor, and each length of a range from there
/// on.
fn each_range(seen: impl Fn(&mut [u8], usize, usize)) {
    for byte in [0, 1, 0x41, 0x61, 0x80, 0xff] {
        for (all, off) in (1..=9).flat_map(|all| (0..all).map(move |off| (all, off))) {
            (1..=all - off).for_each(|len| seen(&mut vec![byte; all], off, len));
        }
    }
}

/// Asserts where the bytes are that calls of a cursor return.
macro_rules! check_reads {
    ($cursor:ident, $bytes:ident, $off:ident, $len:ident) => {{
        let (start, all) = ($bytes.as_ptr(), $bytes.len());
        let mut cursor = $cursor::with_slice($bytes);
        cursor.skip($off).unwrap();
        assert_eq!(place(start, cursor.buf()), (0, all));
        assert_eq!(place(start, cursor.as_ref()), ($off, all - $off));
        assert_eq!(place(start, cursor.peek_bytes($len).unwrap().buf()), ($off, $len));
        let mut view = cursor.get_bytes($len).unwrap();
        assert_eq!(place(start, view.buf()), ($off, $len));
        assert_eq!(place(start, view.slice(1).unwrap()), ($off, 1));
        assert_eq!(place(start, view.get_bytes($len).unwrap().as_ref()), ($off, $len));
    }};
}

#[test]
fn views_for_reading_are_in_the_buffer() {
    each_range(|bytes, off, len| {
        check_reads!(OctetsMut, bytes, off, len);
        let bytes = &*bytes;
        check_reads!(Octets, bytes, off, len);
        let mut cursor = Octets::with_slice(bytes);
        cursor.skip(off).unwrap();
        assert_eq!(place(bytes.as_ptr(), cursor.slice(len).unwrap()), (off, len));
        assert_eq!(place(bytes.as_ptr(), cursor.slice_last(len).unwrap()), (bytes.len() - len, len));
        #[cfg(feature = "more")]
        assert_eq!(place(bytes.as_ptr(), cursor.clone().remaining()), (off, bytes.len() - off));
    });
}

#[test]
fn lengths_and_their_bytes_are_in_the_buffer() {
    for prefix in [&[3][..], &[0, 3], &[0x40, 3], &[0x80, 0, 0, 3]] {
        let bytes = [prefix, b"abc".as_slice()].concat();
        let (start, mut copy) = (bytes.as_ptr(), bytes.clone());
        let copied = copy.as_ptr();
        let (mut read, mut written) = (Octets::with_slice(&bytes), OctetsMut::with_slice(&mut copy));
        let (view, of_copy) = match prefix {
            [_] => (read.get_bytes_with_u8_length(), written.get_bytes_with_u8_length()),
            [0, _] => (read.get_bytes_with_u16_length(), written.get_bytes_with_u16_length()),
            _ => (read.get_bytes_with_varint_length(), written.get_bytes_with_varint_length()),
        };
        assert_eq!(place(start, view.unwrap().buf()), (prefix.len(), 3));
        assert_eq!(place(copied, of_copy.unwrap().buf()), (prefix.len(), 3));
    }
}

#[test]
fn views_for_writing_are_in_the_buffer() {
    each_range(|bytes, off, len| {
        let (start, all) = (bytes.as_ptr(), bytes.len());
        let mut cursor = OctetsMut::with_slice(bytes);
        cursor.skip(off).unwrap();
        assert_eq!(place(start, cursor.as_mut()), (off, all - off));
        assert_eq!(place(start, cursor.peek_bytes_mut(len).unwrap().buf()), (off, len));
        let (left, right) = cursor.split_at(off).unwrap();
        assert_eq!((place(start, left.buf()), place(start, right.buf())), ((0, off), (off, all - off)));
        assert_eq!(place(start, cursor.get_bytes_mut(len).unwrap().buf()), (off, len));
        cursor.rewind(len).unwrap();
        assert_eq!(place(start, cursor.put_u8(7).unwrap()), (off, 1));
        assert_eq!(place(start, OctetsMut::with_slice(bytes).slice(len).unwrap()), (0, len));
        assert_eq!(place(start, OctetsMut::with_slice(bytes).slice_last(len).unwrap()), (all - len, len));
    });
}
