//! The three incremental decoders: nghttp2's, and ours from Rust and from C.
use octets::more::{Decoder, EosError, Progress};
use std::marker::PhantomData;

/// A decoder of ours.
pub trait Incremental {
    fn new() -> Self;
    /// Decodes as much of the piece as there is room for.
    fn decode(&mut self, piece: &[u8], out: &mut [u8]) -> Result<Progress, EosError>;
    /// Decodes all of the piece, and returns how many bytes were written. It panics if that isn't possible.
    fn decode_all(&mut self, piece: &[u8], out: &mut [u8]) -> usize;
    /// Whether the encoding may end here.
    fn may_end(&self) -> bool;
}

pub struct Rust(Decoder);

impl Incremental for Rust {
    fn new() -> Self {
        Rust(Decoder::new())
    }

    #[inline]
    fn decode(&mut self, piece: &[u8], out: &mut [u8]) -> Result<Progress, EosError> {
        self.0.decode(piece, out)
    }

    #[inline]
    fn decode_all(&mut self, piece: &[u8], out: &mut [u8]) -> usize {
        let progress = self.0.decode(piece, out).expect("the encoding is sound");
        assert!(progress.read == piece.len());
        progress.written
    }

    #[inline]
    fn may_end(&self) -> bool {
        self.0.finish().is_ok()
    }
}

#[repr(C)]
pub struct C(u8);

unsafe extern "C" {
    #[rustfmt::skip]
    fn octets_decode_piece(
        bytes: *const u8,
        bytes_len: usize,
        off: &mut usize,
        decoder: &mut C,
        out: *mut u8,
        out_len: usize,
        len: &mut usize,
    ) -> u8;
    fn octets_decode_end(decoder: &C) -> u8;
}

impl C {
    #[inline]
    fn call(&mut self, piece: &[u8], read: &mut usize, out: &mut [u8], written: &mut usize) -> u8 {
        // SAFETY: the pointers come with the lengths of their slices, and nothing overlaps.
        unsafe { octets_decode_piece(piece.as_ptr(), piece.len(), read, self, out.as_mut_ptr(), out.len(), written) }
    }
}

impl Incremental for C {
    fn new() -> Self {
        C(0)
    }

    #[inline]
    fn decode(&mut self, piece: &[u8], out: &mut [u8]) -> Result<Progress, EosError> {
        let (mut read, mut written) = (0, 0);
        match self.call(piece, &mut read, out, &mut written) {
            0 | 6 => Ok(Progress { read, written }),
            5 => Err(EosError { read, written }),
            status => panic!("the status is {status}"),
        }
    }

    #[inline]
    fn decode_all(&mut self, piece: &[u8], out: &mut [u8]) -> usize {
        let (mut read, mut written) = (0, 0);
        assert!(self.call(piece, &mut read, out, &mut written) == 0);
        written
    }

    #[inline]
    fn may_end(&self) -> bool {
        // SAFETY: the state is a byte.
        unsafe { octets_decode_end(self) == 0 }
    }
}

/// nghttp2's decoder, with the slice that it writes to.
pub struct Nghttp2<'a> {
    context: Context,
    buffer: Buffer,
    out: PhantomData<&'a mut [u8]>,
}

/// The structures of nghttp2's files nghttp2_hd_huffman.h and nghttp2_buf.h, the first with room to spare.
#[repr(C)]
struct Context([u64; 2]);

#[repr(C)]
struct Buffer {
    begin: *mut u8,
    end: *mut u8,
    pos: *mut u8,
    last: *mut u8,
    mark: *mut u8,
}

unsafe extern "C" {
    fn nghttp2_hd_huff_decode_context_init(context: &mut Context);
    fn nghttp2_hd_huff_decode(
        context: &mut Context,
        buffer: &mut Buffer,
        from: *const u8,
        len: usize,
        ends: i32,
    ) -> isize;
    fn nghttp2_hd_huff_decode_failure_state(context: &mut Context) -> i32;
}

impl<'a> Nghttp2<'a> {
    /// The slice has to have room for two bytes for each byte of the encoding.
    pub fn new(out: &'a mut [u8]) -> Self {
        let (mut context, begin) = (Context([0; 2]), out.as_mut_ptr());
        // SAFETY: the context has the size of nghttp2's at least.
        unsafe { nghttp2_hd_huff_decode_context_init(&mut context) };
        let buffer = Buffer { begin, end: out.as_mut_ptr_range().end, pos: begin, last: begin, mark: begin };
        Nghttp2 { context, buffer, out: PhantomData }
    }

    /// Decodes a piece, the last one if `ends` is set, and returns whether there was no error.
    #[inline]
    pub fn decode(&mut self, piece: &[u8], ends: bool) -> bool {
        // SAFETY: nghttp2 writes at most two bytes for each byte of the piece.
        unsafe {
            nghttp2_hd_huff_decode(&mut self.context, &mut self.buffer, piece.as_ptr(), piece.len(), ends.into()) >= 0
        }
    }

    /// How many bytes were written.
    pub fn len(&self) -> usize {
        self.buffer.last.addr() - self.buffer.begin.addr()
    }

    /// Whether EOS was met.
    pub fn has_failed(&mut self) -> bool {
        // SAFETY: the context was initialized.
        unsafe { nghttp2_hd_huff_decode_failure_state(&mut self.context) != 0 }
    }
}
