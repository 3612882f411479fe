// Erased from crates/octets_c/src/decoder.rt by tools/erase.
//! Huffman decoding (RFC 7541, section 5.2) of an encoding that comes in pieces, for a caller that
//! keeps the state between the calls.
use rattle_std::{self as std, prelude::*};

use crate::status::{DONE, NO_ROOM, NOT_TEXT, SHORT};

/// The state of a decode. At its start the field is zero.
#[derive(Clone, Copy)]
#[repr(C)]
pub struct Decoder {
    /// The number of the bits that were read since the last code. Each byte is such a number.
    pub state: u8,
}

/// Decodes the piece at the offset.
///
/// # Requires
///
/// - `off.old + length piece.now < 2 ^ 64`
#[inline(always)]
fn decode_at(
    piece: &[u8],
    off: &mut usize,
    decoder: &mut Decoder,
    out: &mut [u8],
    len: &mut usize,
) -> u8 {
    let mut state = octets_pieces::Decoder::of_byte(decoder.state);
    let result = state.decode(piece, out);
    decoder.state = state.to_byte();
    match result {
        Ok(progress) => {
            *off += progress.read;
            *len = progress.written;
            if progress.read < piece.len() {
                NO_ROOM
            } else {
                DONE
            }
        }
        Err(end) => {
            *off += end.read;
            *len = end.written;
            NOT_TEXT
        }
    }
}

/// Decodes the piece at the offset. This is a function of its own, so that a piece of one byte
/// saves no registers for the loop.
///
/// # Requires
///
/// - `off.old + length piece.now < 2 ^ 64`
#[inline(never)]
fn decode_many(
    piece: &[u8],
    off: &mut usize,
    decoder: &mut Decoder,
    out: &mut [u8],
    len: &mut usize,
) -> u8 {
    decode_at(piece, off, decoder, out, len)
}

/// Decodes the bytes from the offset to the end of the buffer, which continue the encoding that
/// earlier calls with the same decoder have read, writes the bytes whose codes they complete to the
/// first *len bytes of out, and leaves the other bytes of out unchanged. The offset moves past the
/// bytes that were read. Zero-initialize *decoder before the first piece. However an encoding is
/// cut into pieces, the bytes that were written are the value that octets_get_huffman_decoded
/// decodes of the whole encoding. An out_len of twice the number of bytes of the piece always
/// suffices.
///
/// Returns OCTETS_DONE if it read all bytes; OCTETS_NO_ROOM if the byte at the offset completes
/// more bytes than out has space for, which are at most two; OCTETS_NOT_TEXT if the code of the
/// symbol EOS ends in the byte at the offset, so that the encoding has an error; OCTETS_SHORT if
/// and only if the offset was past the end of the buffer.
///
/// On error: after OCTETS_NO_ROOM or OCTETS_NOT_TEXT, the bytes before the offset were read, and
/// *len bytes were written. After OCTETS_NO_ROOM, decoding continues if you call again at this
/// offset with space for two bytes; after OCTETS_NOT_TEXT, each such call fails again.
#[inline]
pub fn octets_decode_piece(
    bytes: &[u8],
    off: &mut usize,
    decoder: &mut Decoder,
    out: &mut [u8],
    len: &mut usize,
) -> u8 {
    if bytes.len() < *off {
        *len = 0;
        return SHORT;
    }
    let piece = &bytes[*off..];
    if piece.len() == 1 {
        decode_at(piece, off, decoder, out, len)
    } else {
        decode_many(piece, off, decoder, out, len)
    }
}

/// Returns OCTETS_DONE if the encoding that a decoder has read may end here: the bits after its last
/// code are a padding of at most seven one bits, or there are none. Otherwise it returns
/// OCTETS_NOT_TEXT.
#[inline]
pub fn octets_decode_end(decoder: &Decoder) -> u8 {
    match octets_pieces::Decoder::of_byte(decoder.state).finish() {
        Ok(()) => DONE,
        Err(_) => NOT_TEXT,
    }
}
