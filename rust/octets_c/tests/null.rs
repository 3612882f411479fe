//! Calls every export that takes a slice with NULL and the length 0. With debug assertions, which `cargo test` without
//! `--release` enables, `core` ends the program if a slice is made of NULL.
use std::ptr::{null, null_mut};

#[path = "../src/exports.rs"]
#[allow(dead_code)]
mod exports;

use exports::*;
use octets_c_verified::decoder::Decoder;
use octets_c_verified::pieces::Place;
use octets_c_verified::runs::Run;

const DONE: u8 = 0;
const SHORT: u8 = 1;

#[test]
fn reads_take_null() {
    let (mut off, mut one, mut two, mut four, mut eight) = (0, 9, 9, 9, 9);
    let statuses = unsafe {
        [
            octets_get_u8(null(), 0, &mut off, &mut one),
            octets_get_u16(null(), 0, &mut off, &mut two),
            octets_get_u24(null(), 0, &mut off, &mut four),
            octets_get_u32(null(), 0, &mut off, &mut four),
            octets_get_u64(null(), 0, &mut off, &mut eight),
            octets_get_varint(null(), 0, &mut off, &mut eight),
            octets_get_varint_shortest(null(), 0, &mut off, &mut eight),
        ]
    };
    assert_eq!(statuses, [SHORT; 7]);
    assert_eq!((off, one, two, four, eight), (0, 9, 9, 9, 9));
}

#[test]
fn runs_take_null() {
    let (mut off, mut run) = (0, Run { from: 9, len: 9 });
    let statuses = unsafe {
        [
            octets_get_bytes_with_u8_length(null(), 0, &mut off, &mut run),
            octets_get_bytes_with_u16_length(null(), 0, &mut off, &mut run),
            octets_get_bytes_with_varint_length(null(), 0, &mut off, &mut run),
            octets_skip(null(), 0, &mut off, 1),
            octets_get_bytes(null(), 0, &mut off, 1, &mut run),
            octets_get_bytes_u64(null(), 0, &mut off, 1, &mut run),
        ]
    };
    assert_eq!(statuses, [SHORT; 6]);
    assert_eq!(unsafe { octets_skip(null(), 0, &mut off, 0) }, DONE);
    assert_eq!(unsafe { octets_get_bytes(null(), 0, &mut off, 0, &mut run) }, DONE);
    assert_eq!((off, run.from, run.len), (0, 0, 0));
}

#[test]
fn writes_take_null() {
    let mut off = 0;
    let statuses = unsafe {
        [
            octets_put_u8(null_mut(), 0, &mut off, 1),
            octets_put_u16(null_mut(), 0, &mut off, 1),
            octets_put_u24(null_mut(), 0, &mut off, 1),
            octets_put_u32(null_mut(), 0, &mut off, 1),
            octets_put_u64(null_mut(), 0, &mut off, 1),
            octets_put_varint(null_mut(), 0, &mut off, 1),
            octets_put_varint_with_len(null_mut(), 0, &mut off, 1, 1),
            octets_put_string(null_mut(), 0, &mut off, null(), 0, false),
            octets_put_bytes_with_varint_length(null_mut(), 0, &mut off, null(), 0),
        ]
    };
    assert_eq!(statuses, [SHORT; 9]);
    assert_eq!(unsafe { octets_put_bytes(null_mut(), 0, &mut off, null(), 0) }, DONE);
    assert_eq!(off, 0);
}

#[test]
fn encodes_take_null() {
    let (mut off, mut len, mut other, mut piece) = (0, 9, 9, [7; 8]);
    let mut place = Place { at: 0, bits: 0, count: 0, given: 0 };
    assert_eq!(unsafe { octets_huffman_encoding_len(null(), 0, false, &mut len) }, DONE);
    assert_eq!(unsafe { octets_huffman_text_len(null(), 0, true, &mut other) }, DONE);
    assert_eq!((len, other), (0, 0));
    assert_eq!(unsafe { octets_put_huffman_encoded(null_mut(), 0, &mut off, null(), 0, false) }, DONE);
    len = 9;
    assert_eq!(unsafe { octets_next_piece(null(), 0, false, &mut place, &mut piece, &mut len) }, DONE);
    assert_eq!((off, len, piece), (0, 0, [7; 8]));
}

#[test]
fn decodes_take_null() {
    let (mut off, mut len, empty, mut byte) = (0, 9, [0x80], [7]);
    assert_eq!(unsafe { octets_get_huffman_decoded(null(), 0, &mut off, null_mut(), 0, &mut len) }, DONE);
    assert_eq!((off, len), (0, 0));
    let mut decoder = Decoder { state: 0 };
    len = 9;
    assert_eq!(unsafe { octets_decode_piece(null(), 0, &mut off, &mut decoder, null_mut(), 0, &mut len) }, DONE);
    assert_eq!((off, len, octets_decode_end(&decoder)), (0, 0, DONE));
    assert_eq!(unsafe { octets_get_string(null(), 0, &mut off, null_mut(), 0, &mut len) }, SHORT);
    assert_eq!(unsafe { octets_get_string(empty.as_ptr(), 1, &mut off, null_mut(), 0, &mut len) }, DONE);
    assert_eq!((off, len), (1, 0));
    assert_eq!(unsafe { octets_put_string(byte.as_mut_ptr(), 1, &mut len, null(), 0, false) }, DONE);
    assert_eq!((byte, len), ([0], 1));
}
