//! Calls exports with lengths, widths and offsets of which only the low bits would be valid.
use std::ptr::null_mut;

#[path = "../src/exports.rs"]
#[allow(dead_code)]
mod exports;

use exports::*;
use octets_c_verified::runs::Run;

const DONE: u8 = 0;
const SHORT: u8 = 1;
const UNFIT: u8 = 3;

/// Numbers that are 0 to 8 if only some of their low bits are taken.
fn longer() -> impl Iterator<Item = usize> {
    (8..usize::BITS).flat_map(|bits| (0..=8).map(move |low| (1 << bits) + low))
}

#[test]
fn no_length_is_cut() {
    let bytes = [0xaa; 8];
    let (mut off, mut run) = (0, Run { from: 9, len: 9 });
    for len in longer() {
        let skipped = unsafe { octets_skip(bytes.as_ptr(), 8, &mut off, len) };
        let read = unsafe { octets_get_bytes(bytes.as_ptr(), 8, &mut off, len, &mut run) };
        let wide = unsafe { octets_get_bytes_u64(bytes.as_ptr(), 8, &mut off, len as u64, &mut run) };
        assert_eq!([skipped, read, wide], [SHORT; 3], "{len}");
        assert_eq!((off, run.from, run.len), (0, 9, 9));
    }
}

#[test]
fn no_width_is_cut() {
    let mut bytes = [0xaa; 8];
    for width in longer() {
        let mut off = 0;
        let written = unsafe { octets_put_varint_with_len(bytes.as_mut_ptr(), 8, &mut off, 1, width) };
        assert_eq!((written, off, bytes), (UNFIT, 0, [0xaa; 8]), "{width}");
    }
}

#[test]
fn no_offset_is_cut() {
    let mut bytes = [0xaa; 8];
    for from in longer() {
        let (mut off, mut one, mut run) = (from, 9, Run { from: 9, len: 9 });
        let statuses = unsafe {
            [
                octets_get_u8(bytes.as_ptr(), 8, &mut off, &mut one),
                octets_get_bytes_with_u8_length(bytes.as_ptr(), 8, &mut off, &mut run),
                octets_skip(bytes.as_ptr(), 8, &mut off, 0),
                octets_put_u8(bytes.as_mut_ptr(), 8, &mut off, 1),
                octets_put_bytes(bytes.as_mut_ptr(), 8, &mut off, null_mut(), 0),
            ]
        };
        assert_eq!((statuses, off, one, run.from, run.len, bytes), ([SHORT; 5], from, 9, 9, 9, [0xaa; 8]), "{from}");
    }
}

/// Literals and values of 70,000 bytes, whose length doesn't fit in 16 bits.
#[test]
fn no_value_is_cut() {
    const LEN: usize = 70_000;
    let value: Vec<u8> = (0..LEN).map(|at| at as u8).collect();
    let mut bytes = vec![0; 2 * LEN];
    let mut out = vec![0; LEN];
    let (mut off, mut len) = (0, 0);
    let total = bytes.len();
    let put = unsafe { octets_put_string(bytes.as_mut_ptr(), total, &mut off, value.as_ptr(), LEN, false) };
    assert_eq!(put, DONE);
    // This value is longer when it's encoded, so it's written as it is, after a length of four bytes.
    assert_eq!((off, &bytes[..4]), (LEN + 4, &[0x7f, 0xf1, 0xa1, 0x04][..]));
    off = 0;
    let got = unsafe { octets_get_string(bytes.as_ptr(), total, &mut off, out.as_mut_ptr(), LEN, &mut len) };
    assert_eq!((got, off, len), (DONE, LEN + 4, LEN));
    assert!(out == value);
    let mut run = Run { from: 0, len: 0 };
    off = 3;
    let got = unsafe { octets_get_bytes(bytes.as_ptr(), total, &mut off, LEN, &mut run) };
    assert_eq!((got, off, run.from, run.len), (DONE, LEN + 3, 3, LEN));
}

/// The pieces of a long value in capital letters are those of the encoding, with and without lower case.
#[test]
fn the_pieces_of_a_long_value_are_its_encoding() {
    use octets_c_verified::pieces::Place;
    let value = vec![b'A'; 70_001];
    for lower_case in [false, true] {
        let mut bytes = vec![0; 2 * value.len()];
        let (mut off, total) = (0, bytes.len());
        let put = unsafe {
            octets_put_huffman_encoded(bytes.as_mut_ptr(), total, &mut off, value.as_ptr(), value.len(), lower_case)
        };
        // The code of "A" has six bits, and that of "a" has five.
        let bits = value.len() * if lower_case { 5 } else { 6 };
        assert_eq!((put, off), (DONE, bits.div_ceil(8)));
        let (mut place, mut pieces) = (Place { at: 0, bits: 0, count: 0, given: 0 }, Vec::new());
        loop {
            let (mut piece, mut len) = ([0; 8], 0);
            let next =
                unsafe { octets_next_piece(value.as_ptr(), value.len(), lower_case, &mut place, &mut piece, &mut len) };
            assert_eq!(next, DONE);
            if len == 0 {
                break;
            }
            pieces.extend_from_slice(&piece[..len]);
        }
        assert!(pieces == bytes[..off], "{lower_case}");
    }
}
