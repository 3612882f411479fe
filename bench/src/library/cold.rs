//! Times single calls. Each is on another encoding, after other work that drives the tables out of
//! the processor's caches.
use super::{ours, row};
use crate::inputs::{encoded, value};
use crate::race::Times;
use crate::theirs;
use std::hint::black_box;
use std::time::Instant;

const ROUNDS: usize = 201;
/// The sizes of the memory that other work reads and writes before a call, in KiB.
const WORK: [usize; 4] = [0, 256, 2 << 10, 64 << 10];

/// Reads and writes memory that no call uses, to drive other memory out of the caches.
fn work(memory: &mut [u64]) {
    for word in memory.iter_mut().step_by(8) {
        *word = black_box(word.wrapping_add(1));
    }
}

fn median(mut times: Vec<f64>) -> f64 {
    times.sort_by(f64::total_cmp);
    times[times.len() / 2]
}

/// A call that takes values, or the encodings of values and the length of each.
type Call<'a> = &'a dyn Fn(&[u8], &[u64]) -> usize;

/// Returns the time of a call on each of the encodings in turn, in nanoseconds, for a third of the
/// rounds at a time. An encoding is written just before the call, like one that has just arrived.
fn times(memory: &mut [u64], texts: &[(Vec<u8>, Vec<u64>)], call: Call<'_>) -> [f64; 3] {
    let mut texts = texts.iter().cycle();
    let mut once = || {
        work(memory);
        let (text, lens) = texts.next().expect("texts");
        let (text, lens) = (black_box(text.clone()), black_box(lens.clone()));
        let began = Instant::now();
        black_box(call(&text, &lens));
        began.elapsed().as_nanos() as f64
    };
    [0, 1, 2].map(|_| median((0..ROUNDS / 3).map(|_| once()).collect()))
}

/// Prints a line for the two calls after each amount of other work.
fn after_work(what: &str, texts: &[(Vec<u8>, Vec<u64>)], ours: Call<'_>, theirs: Call<'_>) {
    for kibibytes in WORK {
        let mut memory = vec![0; kibibytes << 7];
        let a = times(&mut memory, texts, ours);
        let b = times(&mut memory, texts, theirs);
        let ratios = [a[0] / b[0], a[1] / b[1], a[2] / b[2]];
        let times = Times {
            ours: median(a.to_vec()),
            theirs: median(b.to_vec()),
            least: ratios.into_iter().fold(f64::MAX, f64::min),
            greatest: ratios.into_iter().fold(0.0, f64::max),
        };
        row(&format!("{what} after {kibibytes} KiB"), "call", &times);
    }
}

/// The Huffman decoder of nghttp2, from its static library.
#[cfg(nghttp2)]
mod nghttp2 {
    use std::ffi::c_int;

    /// The state of a decode.
    #[repr(C)]
    #[derive(Default)]
    struct Context([u64; 2]);

    /// The memory that the decoder writes to, between these addresses. The next byte is written at
    /// `last`.
    #[repr(C)]
    struct Buffer {
        begin: *mut u8,
        end: *mut u8,
        pos: *mut u8,
        last: *mut u8,
        mark: *mut u8,
    }

    unsafe extern "C" {
        fn nghttp2_hd_huff_decode_context_init(context: *mut Context);
        fn nghttp2_hd_huff_decode(
            context: *mut Context,
            buffer: *mut Buffer,
            text: *const u8,
            len: usize,
            is_last: c_int,
        ) -> isize;
    }

    /// Decodes each encoding to the start of `out`, which must be long enough, and returns how many
    /// bytes they decoded to.
    pub fn decode(texts: &[u8], lens: &[u64], out: &mut [u8]) -> usize {
        let (mut from, mut sum) = (0, 0);
        for len in lens {
            let text = &texts[from..from + *len as usize];
            from += text.len();
            let out = out.as_mut_ptr_range();
            let mut context = Context::default();
            let mut buffer =
                Buffer { begin: out.start, end: out.end, pos: out.start, last: out.start, mark: out.start };
            // SAFETY: both structures are ours, and `out` is long enough: 5 bytes decode to at most 8.
            unsafe {
                nghttp2_hd_huff_decode_context_init(&mut context);
                let read = nghttp2_hd_huff_decode(&mut context, &mut buffer, text.as_ptr(), text.len(), 1);
                assert_eq!(read, text.len() as isize);
                sum += buffer.last.offset_from(out.start) as usize;
            }
        }
        sum
    }
}

/// The lengths of the twelve values of a block.
#[cfg(nghttp2)]
const BLOCK: [usize; 12] = [3, 5, 11, 16, 17, 20, 24, 29, 36, 45, 60, 80];

/// Returns blocks of twelve values: their encodings, one after the other, and the length of each.
#[cfg(nghttp2)]
fn blocks(values: &[u8]) -> Vec<(Vec<u8>, Vec<u64>)> {
    let block = |values: &[u8]| {
        let (mut texts, mut lens, mut from) = (Vec::new(), Vec::new(), 0);
        for len in BLOCK {
            let (text, each) = encoded(&values[from..from + len], len);
            texts.extend(text);
            lens.extend(each);
            from += len;
        }
        (texts, lens)
    };
    values.chunks_exact(BLOCK.iter().sum()).map(block).collect()
}

pub fn rows() {
    for size in [2, 24, 200] {
        let values = value("other header text", ROUNDS * size);
        let texts: Vec<_> = values.chunks(size).map(|value| encoded(value, size)).collect();
        after_work(
            &format!("decode to {size} B"),
            &texts,
            &|text, lens| ours::decode((), text, lens),
            &|text, lens| theirs::decode((), text, lens),
        );
        let plain: Vec<_> = values.chunks(size).map(|value| (value.to_vec(), Vec::new())).collect();
        after_work(
            &format!("length of {size} B"),
            &plain,
            &|value, _| ours::text_lens(value, value.len()),
            &|value, _| theirs::text_lens(value, value.len()),
        );
    }
    #[cfg(nghttp2)]
    {
        let blocks = blocks(&value("other header text", ROUNDS * 346));
        after_work(
            "decode a header block of 346 B, beside nghttp2,",
            &blocks,
            &|texts, lens| ours::decode_into(texts, lens, &mut [0; 128]),
            &|texts, lens| nghttp2::decode(texts, lens, &mut [0; 128]),
        );
    }
}
