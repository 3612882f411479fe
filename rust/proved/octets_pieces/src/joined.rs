// Erased from crates/octets_pieces/src/joined.rt by tools/erase.
//! A decode of a list of pieces, which returns what one decode of the joined bytes returns.
use rattle_std::{self as std, prelude::*};

use crate::decoder::Decoder;
use crate::error::PiecesError;
use octets::{IntoError, Octets};

/// How far a decode of the joined bytes came.
#[derive(Clone, Copy)]
struct SoFar {
    /// How many bytes were read.
    read: u128,
    /// How many bytes were written.
    written: usize,
}

/// Decodes the joined bytes of `pieces` into the beginning of `out`, whose length is the limit, and
/// returns the number of bytes of the value.
///
/// However the bytes are cut into pieces, the result is that of one decode of the joined bytes: the
/// value, or the error with its place. If it fails, `out` begins with the bytes that were decoded
/// before the error, as after one decode.
#[inline]
pub fn decode_pieces(pieces: &[&[u8]], out: &mut [u8]) -> Result<usize, PiecesError> {
    let mut decoder = Decoder::new();
    let mut so_far = SoFar {
        read: 0,
        written: 0,
    };
    for piece in pieces {
        decode_next(&mut decoder, piece, out, &mut so_far)?;
    }
    end(&decoder, &so_far)?;
    Ok(so_far.written)
}

/// Decodes `text` by one call of `octets`. Its contract is that of `decode_pieces`, with one piece.
#[inline]
pub fn decode_whole(text: &[u8], out: &mut [u8]) -> Result<usize, PiecesError> {
    let mut cursor = Octets::with_slice(text);
    match cursor.get_huffman_decoded_into(out) {
        Ok(len) => Ok(len),
        Err(why) => Err(PiecesError {
            passed: cursor.off() as u128,
            why,
        }),
    }
}

/// Decodes one more piece.
///
/// # Requires
///
/// - `so_far.old.written ≤ length out.old`
/// - `so_far.old.read + 2 ^ 64 < 2 ^ 128`
#[inline]
fn decode_next(
    decoder: &mut Decoder,
    piece: &[u8],
    out: &mut [u8],
    so_far: &mut SoFar,
) -> Result<(), PiecesError> {
    match decoder.decode(piece, &mut out[so_far.written..]) {
        Ok(progress) => {
            if progress.read < piece.len() {
                decoder.fill(piece[progress.read], out, so_far.written + progress.written);
                return Err(PiecesError {
                    passed: so_far.read + progress.read as u128 + 1,
                    why: IntoError::NoRoom,
                });
            }
            so_far.read += progress.read as u128;
            so_far.written += progress.written;
            Ok(())
        }
        Err(end) => Err(PiecesError {
            passed: so_far.read + end.read as u128 + 1,
            why: IntoError::NotText {
                written: so_far.written + end.written,
            },
        }),
    }
}

/// Returns `Ok` if the encoding may end after what was read so far.
#[inline]
fn end(decoder: &Decoder, so_far: &SoFar) -> Result<(), PiecesError> {
    match decoder.finish() {
        Ok(()) => Ok(()),
        Err(_) => Err(PiecesError {
            passed: so_far.read,
            why: IntoError::NotText {
                written: so_far.written,
            },
        }),
    }
}
