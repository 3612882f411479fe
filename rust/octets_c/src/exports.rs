//! The functions that C calls, each of which calls its verified counterpart. Written by tools/erase.
use rattle_c::{lent, shown};

#[unsafe(no_mangle)]
pub unsafe extern "C" fn octets_decode_piece(
    bytes: *const u8, bytes_len: usize, off: &mut usize, decoder: &mut octets_c_verified::decoder::Decoder, out: *mut u8, out_len: usize, len: &mut usize,
) -> u8 {
    let bytes = unsafe { shown(bytes, bytes_len) };
    let out = unsafe { lent(out, out_len) };
    octets_c_verified::decoder::octets_decode_piece(bytes, off, decoder, out, len)
}

#[unsafe(no_mangle)]
pub extern "C" fn octets_decode_end(decoder: &octets_c_verified::decoder::Decoder) -> u8 {
    octets_c_verified::decoder::octets_decode_end(decoder)
}

#[unsafe(no_mangle)]
pub unsafe extern "C" fn octets_huffman_encoding_len(
    value: *const u8, value_len: usize, lower_case: bool, len: &mut usize,
) -> u8 {
    let value = unsafe { shown(value, value_len) };
    octets_c_verified::huffman::octets_huffman_encoding_len(value, lower_case, len)
}

#[unsafe(no_mangle)]
pub unsafe extern "C" fn octets_huffman_text_len(
    value: *const u8, value_len: usize, lower_case: bool, len: &mut usize,
) -> u8 {
    let value = unsafe { shown(value, value_len) };
    octets_c_verified::huffman::octets_huffman_text_len(value, lower_case, len)
}

#[unsafe(no_mangle)]
pub unsafe extern "C" fn octets_put_huffman_encoded(
    bytes: *mut u8, bytes_len: usize, off: &mut usize, value: *const u8, value_len: usize, lower_case: bool,
) -> u8 {
    let bytes = unsafe { lent(bytes, bytes_len) };
    let value = unsafe { shown(value, value_len) };
    octets_c_verified::huffman::octets_put_huffman_encoded(bytes, off, value, lower_case)
}

#[unsafe(no_mangle)]
pub unsafe extern "C" fn octets_get_huffman_decoded(
    bytes: *const u8, bytes_len: usize, off: &mut usize, out: *mut u8, out_len: usize, len: &mut usize,
) -> u8 {
    let bytes = unsafe { shown(bytes, bytes_len) };
    let out = unsafe { lent(out, out_len) };
    octets_c_verified::huffman::octets_get_huffman_decoded(bytes, off, out, len)
}

#[unsafe(no_mangle)]
pub unsafe extern "C" fn octets_get_string(
    bytes: *const u8, bytes_len: usize, off: &mut usize, out: *mut u8, out_len: usize, len: &mut usize,
) -> u8 {
    let bytes = unsafe { shown(bytes, bytes_len) };
    let out = unsafe { lent(out, out_len) };
    octets_c_verified::literals::octets_get_string(bytes, off, out, len)
}

#[unsafe(no_mangle)]
pub unsafe extern "C" fn octets_put_string(
    bytes: *mut u8, bytes_len: usize, off: &mut usize, value: *const u8, value_len: usize, lower_case: bool,
) -> u8 {
    let bytes = unsafe { lent(bytes, bytes_len) };
    let value = unsafe { shown(value, value_len) };
    octets_c_verified::literals::octets_put_string(bytes, off, value, lower_case)
}

#[unsafe(no_mangle)]
pub unsafe extern "C" fn octets_get_u8(
    bytes: *const u8, bytes_len: usize, off: &mut usize, value: &mut u8,
) -> u8 {
    let bytes = unsafe { shown(bytes, bytes_len) };
    octets_c_verified::numbers::octets_get_u8(bytes, off, value)
}

#[unsafe(no_mangle)]
pub unsafe extern "C" fn octets_get_u16(
    bytes: *const u8, bytes_len: usize, off: &mut usize, value: &mut u16,
) -> u8 {
    let bytes = unsafe { shown(bytes, bytes_len) };
    octets_c_verified::numbers::octets_get_u16(bytes, off, value)
}

#[unsafe(no_mangle)]
pub unsafe extern "C" fn octets_get_u24(
    bytes: *const u8, bytes_len: usize, off: &mut usize, value: &mut u32,
) -> u8 {
    let bytes = unsafe { shown(bytes, bytes_len) };
    octets_c_verified::numbers::octets_get_u24(bytes, off, value)
}

#[unsafe(no_mangle)]
pub unsafe extern "C" fn octets_get_u32(
    bytes: *const u8, bytes_len: usize, off: &mut usize, value: &mut u32,
) -> u8 {
    let bytes = unsafe { shown(bytes, bytes_len) };
    octets_c_verified::numbers::octets_get_u32(bytes, off, value)
}

#[unsafe(no_mangle)]
pub unsafe extern "C" fn octets_get_u64(
    bytes: *const u8, bytes_len: usize, off: &mut usize, value: &mut u64,
) -> u8 {
    let bytes = unsafe { shown(bytes, bytes_len) };
    octets_c_verified::numbers::octets_get_u64(bytes, off, value)
}

#[unsafe(no_mangle)]
pub unsafe extern "C" fn octets_next_piece(
    value: *const u8, value_len: usize, lower_case: bool, place: &mut octets_c_verified::pieces::Place, piece: &mut [u8; 8], len: &mut usize,
) -> u8 {
    let value = unsafe { shown(value, value_len) };
    octets_c_verified::pieces::octets_next_piece(value, lower_case, place, piece, len)
}

#[unsafe(no_mangle)]
pub unsafe extern "C" fn octets_skip(
    bytes: *const u8, bytes_len: usize, off: &mut usize, len: usize,
) -> u8 {
    let bytes = unsafe { shown(bytes, bytes_len) };
    octets_c_verified::runs::octets_skip(bytes, off, len)
}

#[unsafe(no_mangle)]
pub unsafe extern "C" fn octets_get_bytes(
    bytes: *const u8, bytes_len: usize, off: &mut usize, len: usize, run: &mut octets_c_verified::runs::Run,
) -> u8 {
    let bytes = unsafe { shown(bytes, bytes_len) };
    octets_c_verified::runs::octets_get_bytes(bytes, off, len, run)
}

#[unsafe(no_mangle)]
pub unsafe extern "C" fn octets_get_bytes_u64(
    bytes: *const u8, bytes_len: usize, off: &mut usize, len: u64, run: &mut octets_c_verified::runs::Run,
) -> u8 {
    let bytes = unsafe { shown(bytes, bytes_len) };
    octets_c_verified::runs::octets_get_bytes_u64(bytes, off, len, run)
}

#[unsafe(no_mangle)]
pub unsafe extern "C" fn octets_get_bytes_with_u8_length(
    bytes: *const u8, bytes_len: usize, off: &mut usize, run: &mut octets_c_verified::runs::Run,
) -> u8 {
    let bytes = unsafe { shown(bytes, bytes_len) };
    octets_c_verified::runs::octets_get_bytes_with_u8_length(bytes, off, run)
}

#[unsafe(no_mangle)]
pub unsafe extern "C" fn octets_get_bytes_with_u16_length(
    bytes: *const u8, bytes_len: usize, off: &mut usize, run: &mut octets_c_verified::runs::Run,
) -> u8 {
    let bytes = unsafe { shown(bytes, bytes_len) };
    octets_c_verified::runs::octets_get_bytes_with_u16_length(bytes, off, run)
}

#[unsafe(no_mangle)]
pub unsafe extern "C" fn octets_get_bytes_with_varint_length(
    bytes: *const u8, bytes_len: usize, off: &mut usize, run: &mut octets_c_verified::runs::Run,
) -> u8 {
    let bytes = unsafe { shown(bytes, bytes_len) };
    octets_c_verified::runs::octets_get_bytes_with_varint_length(bytes, off, run)
}

#[unsafe(no_mangle)]
pub unsafe extern "C" fn octets_get_varint(
    bytes: *const u8, bytes_len: usize, off: &mut usize, value: &mut u64,
) -> u8 {
    let bytes = unsafe { shown(bytes, bytes_len) };
    octets_c_verified::varints::octets_get_varint(bytes, off, value)
}

#[unsafe(no_mangle)]
pub unsafe extern "C" fn octets_get_varint_shortest(
    bytes: *const u8, bytes_len: usize, off: &mut usize, value: &mut u64,
) -> u8 {
    let bytes = unsafe { shown(bytes, bytes_len) };
    octets_c_verified::varints::octets_get_varint_shortest(bytes, off, value)
}

#[unsafe(no_mangle)]
pub extern "C" fn octets_varint_len(value: u64) -> usize {
    octets_c_verified::varints::octets_varint_len(value)
}

#[unsafe(no_mangle)]
pub extern "C" fn octets_varint_parse_len(first: u8) -> usize {
    octets_c_verified::varints::octets_varint_parse_len(first)
}

#[unsafe(no_mangle)]
pub extern "C" fn octets_version() -> u32 {
    octets_c_verified::version::octets_version()
}

#[unsafe(no_mangle)]
pub unsafe extern "C" fn octets_put_bytes(
    bytes: *mut u8, bytes_len: usize, off: &mut usize, value: *const u8, value_len: usize,
) -> u8 {
    let bytes = unsafe { lent(bytes, bytes_len) };
    let value = unsafe { shown(value, value_len) };
    octets_c_verified::writes::octets_put_bytes(bytes, off, value)
}

#[unsafe(no_mangle)]
pub unsafe extern "C" fn octets_put_u8(
    bytes: *mut u8, bytes_len: usize, off: &mut usize, value: u8,
) -> u8 {
    let bytes = unsafe { lent(bytes, bytes_len) };
    octets_c_verified::writes::octets_put_u8(bytes, off, value)
}

#[unsafe(no_mangle)]
pub unsafe extern "C" fn octets_put_u16(
    bytes: *mut u8, bytes_len: usize, off: &mut usize, value: u16,
) -> u8 {
    let bytes = unsafe { lent(bytes, bytes_len) };
    octets_c_verified::writes::octets_put_u16(bytes, off, value)
}

#[unsafe(no_mangle)]
pub unsafe extern "C" fn octets_put_u24(
    bytes: *mut u8, bytes_len: usize, off: &mut usize, value: u32,
) -> u8 {
    let bytes = unsafe { lent(bytes, bytes_len) };
    octets_c_verified::writes::octets_put_u24(bytes, off, value)
}

#[unsafe(no_mangle)]
pub unsafe extern "C" fn octets_put_u32(
    bytes: *mut u8, bytes_len: usize, off: &mut usize, value: u32,
) -> u8 {
    let bytes = unsafe { lent(bytes, bytes_len) };
    octets_c_verified::writes::octets_put_u32(bytes, off, value)
}

#[unsafe(no_mangle)]
pub unsafe extern "C" fn octets_put_u64(
    bytes: *mut u8, bytes_len: usize, off: &mut usize, value: u64,
) -> u8 {
    let bytes = unsafe { lent(bytes, bytes_len) };
    octets_c_verified::writes::octets_put_u64(bytes, off, value)
}

#[unsafe(no_mangle)]
pub unsafe extern "C" fn octets_put_varint(
    bytes: *mut u8, bytes_len: usize, off: &mut usize, value: u64,
) -> u8 {
    let bytes = unsafe { lent(bytes, bytes_len) };
    octets_c_verified::writes::octets_put_varint(bytes, off, value)
}

#[unsafe(no_mangle)]
pub unsafe extern "C" fn octets_put_varint_with_len(
    bytes: *mut u8, bytes_len: usize, off: &mut usize, value: u64, width: usize,
) -> u8 {
    let bytes = unsafe { lent(bytes, bytes_len) };
    octets_c_verified::writes::octets_put_varint_with_len(bytes, off, value, width)
}

#[unsafe(no_mangle)]
pub unsafe extern "C" fn octets_put_bytes_with_varint_length(
    bytes: *mut u8, bytes_len: usize, off: &mut usize, value: *const u8, value_len: usize,
) -> u8 {
    let bytes = unsafe { lent(bytes, bytes_len) };
    let value = unsafe { shown(value, value_len) };
    octets_c_verified::writes::octets_put_bytes_with_varint_length(bytes, off, value)
}
