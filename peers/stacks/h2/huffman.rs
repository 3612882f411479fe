//! The Huffman code of HPACK, by the crate `octets`. It replaces h2's src/hpack/huffman/mod.rs, and its table.rs of 5,130
//! lines. The dependency in Cargo.toml has the feature `more`.
use crate::hpack::DecoderError;

use bytes::BytesMut;
use octets::{more::huffman_decoded_len_max, Octets, OctetsWriter};
use std::convert::Infallible;

/// Decodes `src` behind what `buf` has, which is nothing when h2 calls it, and splits the value off.
pub fn decode(src: &[u8], buf: &mut BytesMut) -> Result<BytesMut, DecoderError> {
    let start = buf.len();
    buf.resize(start + huffman_decoded_len_max(src.len()), 0);
    let decoded = Octets::with_slice(src).get_huffman_decoded_into(&mut buf[start..]);
    buf.truncate(start + decoded.as_ref().map_or(0, |len| *len));
    decoded.map_err(|_| DecoderError::InvalidHuffmanCode)?;
    Ok(buf.split())
}

/// Appends the encoding of `src` to `dst`.
pub fn encode(src: &[u8], dst: &mut BytesMut) {
    let Ok(()) = Buffer(dst).put_huffman_encoded::<false>(src) else { unreachable!() };
}

/// A destination for bytes that grows, so that no write fails.
struct Buffer<'a>(&'a mut BytesMut);

impl OctetsWriter for Buffer<'_> {
    type Error = Infallible;

    fn put_bytes(&mut self, v: &[u8]) -> Result<(), Infallible> {
        self.0.extend_from_slice(v);
        Ok(())
    }
}
