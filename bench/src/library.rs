//! Prints the time of our calls, divided by that of the other crate's, as tables in Markdown.
//!
//! The first table has single decodes and lengths. Each is of another encoding, after work in other memory, so that the
//! decoder's tables aren't in the caches. It also has header blocks, compared with nghttp2's decoder if its static library is
//! installed. The second table has loops over the calls, which are inlined on both sides. The third has two calls of ours: a
//! decode into the caller's slice, and one into a vector. In the last table our library is called as from C, and no compiler
//! inlines such a call, while the crate's calls are inlined. There our decode writes into the caller's buffer, and the
//! crate's into a vector that it allocates.
mod calls;
mod cold;
#[allow(dead_code)]
mod exports;

use crate::inputs::{encoded, value, BYTES};
use crate::race::{race, Times};
use crate::rows;
use exports::DONE;
use std::hint::black_box;
use theirs::{huffman_encoding_len, Octets, OctetsMut};

/// Our loops, which rt compiled. A slice is passed as its address and its length.
#[allow(improper_ctypes)]
pub mod ours {
    macro_rules! linked {
        ($arguments:tt $result:ty; $($name:ident)*) => {
            unsafe extern "C" { $(
                #[link_name = concat!("loop_", stringify!($name))]
                pub safe fn $name $arguments -> $result;
            )* }
        };
    }
    linked! { (bytes: &[u8]) u64;
    get_u8 get_u16 get_u24 get_u32 get_u64 get_varint get_bytes_with_u8_length get_bytes_with_u16_length
    get_bytes_with_varint_length get_packets }
    linked! { (bytes: &[u8], each: usize) u64; get_bytes }
    linked! { (numbers: &[u64], out: &mut [u8]) usize;
    put_u8 put_u16 put_u24 put_u32 put_u64 put_varint put_varint_in_1 put_varint_in_2 put_varint_in_4 put_varint_in_8
    put_packets }
    linked! { (lens: &[u64], bytes: &[u8], out: &mut [u8]) usize; put_bytes }
    linked! { (values: &[u8], each: usize, out: &mut [u8]) usize; encode encode_lower encode_to_sink }
    linked! { (values: &[u8], each: usize) usize; text_lens text_lens_lower }
    linked! { (alloc: (), texts: &[u8], lens: &[u64]) usize; decode }
    linked! { (alloc: (), texts: &[u8], lens: &[u64], limit: usize) usize; decode_within }
    linked! { (texts: &[u8], lens: &[u64], out: &mut [u8]) usize; decode_into }
}

const SIZES: [usize; 10] = [1, 8, 16, 24, 64, 256, 1024, 4096, 65536, 1 << 20];

pub fn row(what: &str, unit: &str, times: &Times) {
    let (ours, theirs) = (times.ours, times.theirs);
    let (ratio, least, greatest) = (ours / theirs, times.least, times.greatest);
    println!("| {what} | {ours:.2} | {theirs:.2} | {ratio:.2} | {least:.2} to {greatest:.2} | {unit} |");
}

fn encode(value: &[u8], out: &mut [u8]) -> usize {
    let mut cursor = OctetsMut::with_slice(out);
    cursor.put_huffman_encoded::<false>(value).expect("the buffer is long enough");
    cursor.off()
}

/// Times encode, decode and length for a value of this kind at each size.
fn texts(kind: &'static str) {
    for size in SIZES {
        let value = value(kind, size);
        let (mut a, mut b, mut c) = (vec![0; 4 * size], vec![0; 4 * size], vec![0; size]);
        let times = race(
            size,
            &mut || exports::put_huffman_encoded(&mut a, 0, black_box(&value), false).off as u64,
            &mut || encode(black_box(&value), &mut b) as u64,
        );
        row(&format!("encode {kind}, {size} B"), "byte", &times);

        let len = encode(&value, &mut b);
        let text = &b[..len];
        let times =
            race(size, &mut || exports::get_huffman_decoded(black_box(text), 0, &mut c, 0).value as u64, &mut || {
                Octets::with_slice(black_box(text)).get_huffman_decoded().map_or(0, |v| v.len()) as u64
            });
        row(&format!("decode {kind}, {size} B"), "byte", &times);

        let times =
            race(size, &mut || exports::huffman_encoding_len(black_box(&value), false, 0).off as u64, &mut || {
                huffman_encoding_len::<false>(black_box(&value)).unwrap_or(0) as u64
            });
        row(&format!("length of {kind}, {size} B"), "byte", &times);
    }
}

/// Times reads of packets, one after the other. A packet is a kind, a number, a length and a payload.
fn packets() {
    let one = [0x07, 0x01, 0x02, 0x03, 0x61, 0x62, 0x63];
    let many: Vec<u8> = one.iter().copied().cycle().take(7 * 1000).collect();
    let mut ours = || {
        let (bytes, mut off, mut sum) = (black_box(&many[..]), 0, 0u64);
        while off < bytes.len() {
            let kind = exports::get_u8(bytes, off, 0);
            let number = exports::get_u16(bytes, kind.off, 0);
            let run = exports::get_bytes_with_varint_length(bytes, number.off, exports::Run::default());
            assert_eq!(run.status, DONE);
            off = run.off;
            sum += u64::from(kind.value) + u64::from(number.value) + run.value.len as u64;
        }
        sum
    };
    let mut theirs = || {
        let (mut cursor, mut sum) = (Octets::with_slice(black_box(&many)), 0u64);
        while cursor.cap() > 0 {
            sum += u64::from(cursor.get_u8().unwrap()) + u64::from(cursor.get_u16().unwrap());
            sum += cursor.get_bytes_with_varint_length().unwrap().len() as u64;
        }
        sum
    };
    row("packets of 7 bytes, three calls each", "packet", &race(1000, &mut ours, &mut theirs));
}

fn head(title: &str, ours: &str, theirs: &str) {
    println!("{title}\n\n| What | {ours}, ns | {theirs}, ns | Ratio | In batches | For a |");
    println!("|---|---|---|---|---|---|");
}

/// Times our decode into a slice, alternating with ours into a vector under the same limit.
fn into_slices() {
    for (kind, lens) in [
        ("header text", &[1, 8, 16, 24, 32, 40, 48, 64, 128, 256, 1024, 16384][..]),
        ("5-bit codes", &[16, 64, 256, 1024, 16384]),
        ("random bytes", &[16, 64, 256, 1024, 16384]),
        ("line feeds", &[16, 64, 256, 1024, 16384]),
    ] {
        for &each in lens {
            let values = value(kind, BYTES / each * each);
            let (texts, lens) = encoded(&values, each);
            let mut room = vec![0; each];
            let times = race(
                values.len(),
                &mut || ours::decode_into(black_box(&texts), black_box(&lens), &mut room) as u64,
                &mut || ours::decode_within((), black_box(&texts), black_box(&lens), black_box(each)) as u64,
            );
            row(&format!("decode {kind}, {each} B"), "byte", &times);
        }
    }
}

pub fn tables() {
    head("One call on another text after other work:", "Ours", "Theirs");
    cold::rows();
    head("\nInlined on both sides:", "Ours", "The Rust crate");
    rows::rows();
    head("\nBoth ours, under the same limit:", "Into a slice", "Into a vector");
    into_slices();
    head("\nThrough the static library:", "Ours", "The Rust crate");
    calls::rows();
    packets();
    texts("header text");
    texts("random bytes");
    texts("line feeds");
}
