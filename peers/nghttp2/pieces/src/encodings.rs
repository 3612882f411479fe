//! Random values, encodings, damage and cuts.
use octets::OctetsMut;

/// The generator xorshift64*.
pub struct Random(pub u64);

impl Random {
    pub fn next(&mut self) -> u64 {
        self.0 ^= self.0 << 13;
        self.0 ^= self.0 >> 7;
        self.0 ^= self.0 << 17;
        self.0.wrapping_mul(0x2545_f491_4f6c_dd1d) >> 11
    }

    pub fn below(&mut self, count: usize) -> usize {
        (self.next() % count as u64) as usize
    }

    fn of<'a, T>(&mut self, all: &'a [T]) -> &'a T {
        &all[self.below(all.len())]
    }
}

/// What a value consists of.
#[derive(Clone, Copy)]
pub enum Kind {
    Words,
    HeaderLetters,
    ShortCodes,
    LongCodes,
    Printable,
    AnyBytes,
}

use Kind::*;

const KINDS: [Kind; 6] = [Words, HeaderLetters, ShortCodes, LongCodes, Printable, AnyBytes];

#[rustfmt::skip]
const WORDS: [&str; 24] = [
    "GET", "https://", "www.", "example", ".com", "/index.html", "?id=", "gzip, deflate, br", " Gecko/20100101",
    "Mozilla/5.0 (X11; Linux x86_64; rv:109.0)", " Firefox/115.0", "text/html", "application/json", "no-cache",
    "; charset=utf-8", "max-age=", "Mon, 21 Oct 2013 20:13:21 GMT", "session=", "en-US,en;q=0.5", "keep-alive",
    "bytes=0-", "W/\"", "image/avif,image/webp,*/*;q=0.8", "Bearer ",
];

pub fn value(random: &mut Random, kind: Kind, len: usize) -> Vec<u8> {
    let mut value = Vec::new();
    while value.len() < len {
        match kind {
            Words if random.below(4) > 0 => value.extend(random.of(&WORDS).bytes()),
            Words => value.extend(random.below(100_000).to_string().bytes()),
            HeaderLetters => value.push(*random.of(b"abcdefghijklmnopqrstuvwxyz0123456789-/.:;= ")),
            ShortCodes => value.push(*random.of(b"aeiost012c")),
            LongCodes => value.push(*random.of(b"\n\r\x16\xf9\x02\0$@[]~")),
            Printable => value.push(32 + random.below(95) as u8),
            AnyBytes => value.push(random.next() as u8),
        }
    }
    value.truncate(len);
    value
}

pub fn encoding(value: &[u8]) -> Vec<u8> {
    let mut text = vec![0; 4 * value.len()];
    let mut cursor = OctetsMut::with_slice(&mut text);
    cursor.put_huffman_encoded::<false>(value).expect("a code has at most 30 bits");
    let len = cursor.off();
    text.truncate(len);
    text
}

/// An encoding of a random value. Half of them are damaged: bits are flipped, bytes are cut off or added, or one bits
/// are inserted, which may be EOS.
pub fn some_encoding(random: &mut Random) -> Vec<u8> {
    let most = *random.of(&[6, 24, 60, 150]);
    let (kind, len) = (*random.of(&KINDS), random.below(most));
    let mut text = encoding(&value(random, kind, len));
    let at = random.below(text.len() + 1);
    match random.below(8) {
        0 if at < text.len() => text[at] ^= 1 << random.below(8),
        1 => text.truncate(at),
        2 => text.extend((0..random.below(6)).map(|_| random.next() as u8)),
        3 => drop(text.splice(at..at, vec![0xff; 1 + random.below(6)])),
        _ => {}
    }
    text
}

/// Cuts an encoding at random places. Pieces may be empty.
pub fn cut<'a>(random: &mut Random, text: &'a [u8]) -> Vec<&'a [u8]> {
    let most = *random.of(&[1, 2, 4, 9, 17, 70, 1000]);
    let (mut pieces, mut rest) = (Vec::new(), text);
    while !rest.is_empty() {
        let (piece, more) = rest.split_at(random.below(most + 1).min(rest.len()));
        pieces.push(piece);
        rest = more;
    }
    pieces
}
