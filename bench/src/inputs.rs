//! The inputs, which are the same in each run.
use crate::prepared;

pub const CALLS: usize = 8192;
/// A branch predictor learns the widths of a few thousand varints, and not those of a million.
pub const FEW: usize = 4096;
pub const MANY: usize = 1 << 20;
pub const BYTES: usize = 16_384;

/// A generator that gives the same numbers in each run.
pub struct Random(u64);

impl Random {
    pub fn new() -> Random {
        Random(88_172_645_463_325_252)
    }

    pub fn next(&mut self) -> u64 {
        self.0 ^= self.0 << 13;
        self.0 ^= self.0 >> 7;
        self.0 ^= self.0 << 17;
        self.0
    }

    pub fn bytes(&mut self, len: usize) -> Vec<u8> {
        (0..len).map(|_| (self.next() >> 24) as u8).collect()
    }

    /// Returns so many numbers whose varints have `width` bytes, or any number of bytes if `width` is 0.
    pub fn numbers(&mut self, width: usize, count: usize) -> Vec<u64> {
        let any = |_| {
            let x = self.next() >> 3;
            match if width == 0 { 1 << (x % 4) } else { width } {
                1 => x % 64,
                2 => 64 + x % 16_000,
                4 => 16_384 + x % 1_000_000_000,
                _ => (1 << 30) + x,
            }
        };
        (0..count).map(any).collect()
    }

    /// Returns how many runs of less than 30 bytes there are, and the runs, each after its length, whose high bytes are
    /// given.
    pub fn runs(&mut self, high: &[u8]) -> (usize, Vec<u8>) {
        let (mut count, mut bytes) = (0, Vec::new());
        while bytes.len() < BYTES {
            let len = (self.next() % 30) as usize;
            bytes.extend(high);
            bytes.push(len as u8);
            bytes.extend(self.bytes(len));
            count += 1;
        }
        (count, bytes)
    }
}

/// Returns a value as headers have them, or of bytes with short or with long codes, or of any
/// bytes.
pub fn value(kind: &str, len: usize) -> Vec<u8> {
    let header = b"GET https://www.example.com/index.html?id=1234 :method accept-encoding: gzip, br ";
    match kind {
        "header text" => header.iter().copied().cycle().take(len).collect(),
        "5-bit codes" => b"aeiost012c".iter().copied().cycle().take(len).collect(),
        "line feeds" => vec![b'\n'; len],
        "13-bit codes" => picked(b"\0$@[]~", len),
        "0 and line feed in turn" => b"0\n".iter().copied().cycle().take(len).collect(),
        "other header text" => other_headers(len),
        _ => Random::new().bytes(len),
    }
}

/// Returns `len` bytes, each of which is one of `bytes`, at random.
fn picked(bytes: &[u8], len: usize) -> Vec<u8> {
    let mut random = Random::new();
    (0..len).map(|_| bytes[random.next() as usize % bytes.len()]).collect()
}

/// Returns header text that doesn't repeat itself soon: words, and now and then a number or a
/// token.
fn other_headers(len: usize) -> Vec<u8> {
    let words = [
        "GET ",
        "https://www.example.com/",
        "index.html",
        "?id=",
        ":method ",
        ":path ",
        "accept-encoding: gzip, deflate, br ",
        "user-agent: Mozilla/5.0 (X11; Linux x86_64) ",
        "cache-control: no-cache, max-age=0 ",
        "cookie: session=",
        "; theme=dark ",
        "content-type: application/json; charset=utf-8 ",
        "date: Mon, 21 Oct 2013 20:13:21 GMT ",
        "etag: \"",
        "x-request-id: ",
        "en-US,en;q=0.5 ",
        "/api/v1/users/",
        "static/js/main.",
        "authorization: Bearer ",
    ];
    let (mut random, mut text) = (Random::new(), Vec::new());
    while text.len() < len {
        let digits: &[u8] = match random.next() % 8 {
            0 | 1 => b"0123456789",
            2 | 3 => b"0123456789abcdef",
            4 => b"ABCDEFGHIJKLMNOPQRSTUVWXYZabcdefghijklmnopqrstuvwxyz0123456789+/",
            _ => {
                text.extend(words[random.next() as usize % words.len()].bytes());
                continue;
            }
        };
        let count = 4 + random.next() % 20;
        text.extend((0..count).map(|_| digits[random.next() as usize % digits.len()]));
    }
    text.truncate(len);
    text
}

/// Returns the encodings of values of this length, one after the other, and the length of each.
pub fn encoded(values: &[u8], each: usize) -> (Vec<u8>, Vec<u64>) {
    let mut out = vec![0; 4 * each + 16];
    let (mut texts, mut lens) = (Vec::new(), Vec::new());
    for value in values.chunks(each) {
        let len = prepared::encode(value, each, &mut out);
        texts.extend(&out[..len]);
        lens.push(len as u64);
    }
    (texts, lens)
}
