//! Times the decoders in turn, and prints our least time divided by nghttp2's, as a table in Markdown.
use crate::decoders::{C, Incremental, Nghttp2, Rust};
use crate::encodings::{Kind, Random, encoding, value};
use std::hint::black_box;
use std::time::Instant;

/// Encodings of 100,000 bytes of values.
fn encodings(kind: Kind, least: usize, most: usize) -> Vec<Vec<u8>> {
    let (mut random, mut texts, mut total) = (Random(88_172_645_463_325_252), Vec::new(), 0);
    while total < 100_000 {
        let len = least + random.below(most - least + 1);
        texts.push(encoding(&value(&mut random, kind, len)));
        total += len;
    }
    texts
}

/// Decodes all encodings by nghttp2 in pieces of this length, and returns the seconds that it took, and how many bytes
/// were written.
fn theirs(texts: &[Vec<u8>], piece_len: usize, out: &mut [u8]) -> (f64, usize) {
    let (start, mut total) = (Instant::now(), 0);
    for text in texts {
        let (mut decoder, mut left, mut ends) = (Nghttp2::new(out), text.len(), true);
        for piece in text.chunks(piece_len) {
            left -= piece.len();
            ends = decoder.decode(piece, left == 0);
        }
        assert!(ends);
        total += decoder.len();
    }
    (start.elapsed().as_secs_f64(), total)
}

/// And by one of ours.
fn ours<D: Incremental>(texts: &[Vec<u8>], piece_len: usize, out: &mut [u8]) -> (f64, usize) {
    let (start, mut total) = (Instant::now(), 0);
    for text in texts {
        let (mut decoder, mut len) = (D::new(), 0);
        for piece in text.chunks(piece_len) {
            len += decoder.decode_all(piece, &mut out[len..]);
        }
        assert!(decoder.may_end());
        total += len;
    }
    (start.elapsed().as_secs_f64(), total)
}

/// The least times of nghttp2, Rust and C over these rounds.
fn least(texts: &[Vec<u8>], piece_len: usize, rounds: u64) -> [f64; 3] {
    let (mut out, mut least) = (vec![0; 1 << 15], [f64::MAX; 3]);
    for _ in 0..rounds {
        let (texts, len) = (black_box(texts), black_box(piece_len));
        let times = [theirs(texts, len, &mut out), ours::<Rust>(texts, len, &mut out), ours::<C>(texts, len, &mut out)];
        for (least, (time, total)) in least.iter_mut().zip(times) {
            *least = least.min(time);
            assert_eq!(total, times[0].1);
        }
    }
    least
}

pub fn all(rounds: u64) {
    println!("| Rust, C | 1 byte | 4 | 16 | 64 | whole |\n|---|---|---|---|---|---|");
    let mut greatest = 0.0f64;
    for (name, kind, from, to) in [
        ("words of headers, 8 to 120 bytes", Kind::Words, 8, 120),
        ("letters of headers, 24 bytes", Kind::HeaderLetters, 24, 24),
        ("words of headers, 1,000 to 2,000 bytes", Kind::Words, 1000, 2000),
        ("any bytes, 8 to 120 bytes", Kind::AnyBytes, 8, 120),
    ] {
        let texts = encodings(kind, from, to);
        print!("| {name} |");
        for piece_len in [1, 4, 16, 64, usize::MAX] {
            let [theirs, rust, c] = least(&texts, piece_len, rounds);
            greatest = greatest.max(rust / theirs).max(c / theirs);
            print!(" {:.2}, {:.2} |", rust / theirs, c / theirs);
        }
        println!();
    }
    println!("\nThe greatest is {greatest:.2}.");
}
