//! What each status means, in English, and its name in `octets.h`. They are the strings of `crates/octets_c/status.c`,
//! which is in the library that the kit builds.
use core::ffi::{CStr, c_char};

const STATUSES: [(&CStr, &CStr); 7] = [
    (c"OCTETS_DONE", c"done"),
    (c"OCTETS_SHORT", c"too few bytes remain, or the encoding is longer than the value"),
    (c"OCTETS_OVERLONG", c"varint is wider than its value needs"),
    (c"OCTETS_UNFIT", c"number, width or place is out of range"),
    (c"OCTETS_LONG", c"length is too great"),
    (c"OCTETS_NOT_TEXT", c"bytes are no Huffman encoding"),
    (c"OCTETS_NO_ROOM", c"value is longer than its buffer"),
];

fn found(status: u8) -> (&'static CStr, &'static CStr) {
    match STATUSES.get(usize::from(status)) {
        Some(strings) => *strings,
        None => (c"unknown status", c"unknown status"),
    }
}

#[unsafe(no_mangle)]
pub extern "C" fn octets_status_name(status: u8) -> *const c_char {
    found(status).0.as_ptr()
}

#[unsafe(no_mangle)]
pub extern "C" fn octets_status_text(status: u8) -> *const c_char {
    found(status).1.as_ptr()
}
