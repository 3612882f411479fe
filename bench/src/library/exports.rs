//! The calls of `octets.h`. Each is a function that returns everything that the call returns and writes.

pub const DONE: u8 = 0;
pub const SHORT: u8 = 1;
pub const OVERLONG: u8 = 2;
pub const UNFIT: u8 = 3;
pub const NOT_TEXT: u8 = 5;
pub const NO_ROOM: u8 = 6;

/// The position and the length of a run of bytes in its buffer.
#[repr(C)]
#[derive(Clone, Copy, Debug, Default, PartialEq)]
pub struct Run {
    pub from: usize,
    pub len: usize,
}

/// The results of a call: its status, the offset after it, and its value, run or length.
#[derive(Debug, PartialEq)]
pub struct Answer<T> {
    pub status: u8,
    pub off: usize,
    pub value: T,
}

macro_rules! reads {
    ($($name:ident $export:ident $type:ty;)*) => { $(
        pub fn $name(bytes: &[u8], off: usize, untouched: $type) -> Answer<$type> {
            extern "C" {
                fn $export(bytes: *const u8, len: usize, off: &mut usize, value: &mut $type) -> u8;
            }
            let (mut off, mut value) = (off, untouched);
            let status = unsafe { $export(bytes.as_ptr(), bytes.len(), &mut off, &mut value) };
            Answer { status, off, value }
        }
    )* };
}

reads! {
    get_u8 octets_get_u8 u8;
    get_u16 octets_get_u16 u16;
    get_u24 octets_get_u24 u32;
    get_u32 octets_get_u32 u32;
    get_u64 octets_get_u64 u64;
    get_varint octets_get_varint u64;
    get_varint_shortest octets_get_varint_shortest u64;
    get_bytes_with_u8_length octets_get_bytes_with_u8_length Run;
    get_bytes_with_u16_length octets_get_bytes_with_u16_length Run;
    get_bytes_with_varint_length octets_get_bytes_with_varint_length Run;
}

macro_rules! writes {
    ($($name:ident $export:ident $type:ty;)*) => { $(
        pub fn $name(bytes: &mut [u8], off: usize, value: $type) -> Answer<()> {
            extern "C" {
                fn $export(bytes: *mut u8, len: usize, off: &mut usize, value: $type) -> u8;
            }
            let mut off = off;
            let status = unsafe { $export(bytes.as_mut_ptr(), bytes.len(), &mut off, value) };
            Answer { status, off, value: () }
        }
    )* };
}

writes! {
    put_u8 octets_put_u8 u8;
    put_u16 octets_put_u16 u16;
    put_u24 octets_put_u24 u32;
    put_u32 octets_put_u32 u32;
    put_u64 octets_put_u64 u64;
    put_varint octets_put_varint u64;
}

extern "C" {
    fn octets_skip(bytes: *const u8, len: usize, off: &mut usize, skip: usize) -> u8;
    fn octets_get_bytes(b: *const u8, n: usize, off: &mut usize, len: usize, run: &mut Run) -> u8;
    fn octets_put_varint_with_len(b: *mut u8, n: usize, off: &mut usize, v: u64, width: usize) -> u8;
    fn octets_put_bytes(b: *mut u8, n: usize, off: &mut usize, v: *const u8, len: usize) -> u8;
    fn octets_huffman_encoding_len(v: *const u8, n: usize, lower: bool, len: &mut usize) -> u8;
    fn octets_put_huffman_encoded(
        bytes: *mut u8,
        len: usize,
        off: &mut usize,
        value: *const u8,
        value_len: usize,
        lower_case: bool,
    ) -> u8;
    fn octets_get_huffman_decoded(
        bytes: *const u8,
        len: usize,
        off: &mut usize,
        out: *mut u8,
        out_len: usize,
        value_len: &mut usize,
    ) -> u8;
}

pub fn skip(bytes: &[u8], off: usize, len: usize) -> Answer<()> {
    let mut off = off;
    let status = unsafe { octets_skip(bytes.as_ptr(), bytes.len(), &mut off, len) };
    Answer { status, off, value: () }
}

pub fn get_bytes(bytes: &[u8], off: usize, len: usize, untouched: Run) -> Answer<Run> {
    let (mut off, mut value) = (off, untouched);
    let (from, all) = (bytes.as_ptr(), bytes.len());
    let status = unsafe { octets_get_bytes(from, all, &mut off, len, &mut value) };
    Answer { status, off, value }
}

pub fn put_varint_with_len(bytes: &mut [u8], off: usize, value: u64, width: usize) -> Answer<()> {
    let mut off = off;
    let (from, all) = (bytes.as_mut_ptr(), bytes.len());
    let status = unsafe { octets_put_varint_with_len(from, all, &mut off, value, width) };
    Answer { status, off, value: () }
}

pub fn put_bytes(bytes: &mut [u8], off: usize, value: &[u8]) -> Answer<()> {
    let mut off = off;
    let (from, all) = (bytes.as_mut_ptr(), bytes.len());
    let status = unsafe { octets_put_bytes(from, all, &mut off, value.as_ptr(), value.len()) };
    Answer { status, off, value: () }
}

/// The offset of the result is the length that the call returned.
pub fn huffman_encoding_len(value: &[u8], lower_case: bool, untouched: usize) -> Answer<()> {
    let mut off = untouched;
    let (from, all) = (value.as_ptr(), value.len());
    let status = unsafe { octets_huffman_encoding_len(from, all, lower_case, &mut off) };
    Answer { status, off, value: () }
}

pub fn put_huffman_encoded(out: &mut [u8], off: usize, value: &[u8], lower: bool) -> Answer<()> {
    let mut off = off;
    let ((from, all), (v, n)) = ((out.as_mut_ptr(), out.len()), (value.as_ptr(), value.len()));
    let status = unsafe { octets_put_huffman_encoded(from, all, &mut off, v, n, lower) };
    Answer { status, off, value: () }
}

pub fn get_huffman_decoded(bytes: &[u8], off: usize, out: &mut [u8], untouched: usize) -> Answer<usize> {
    let (mut off, mut value) = (off, untouched);
    let ((from, all), (to, n)) = ((bytes.as_ptr(), bytes.len()), (out.as_mut_ptr(), out.len()));
    let status = unsafe { octets_get_huffman_decoded(from, all, &mut off, to, n, &mut value) };
    Answer { status, off, value }
}
