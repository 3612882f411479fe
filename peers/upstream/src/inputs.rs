//! Inputs that are generated from a seed.

/// Numbers that are generated from a seed (xorshift64*).
pub struct Numbers(u64);

impl Numbers {
    pub fn new(seed: u64) -> Numbers {
        Numbers(0x9e37_79b9_7f4a_7c15 ^ seed.wrapping_mul(0xd1b5_4a32_d192_ed03) | 1)
    }

    pub fn next(&mut self) -> u64 {
        self.0 ^= self.0 << 13;
        self.0 ^= self.0 >> 7;
        self.0 ^= self.0 << 17;
        self.0.wrapping_mul(0x2545_f491_4f6c_dd1d)
    }

    /// Returns a number below `end`.
    pub fn below(&mut self, end: usize) -> usize {
        ((self.next() >> 33) % end as u64) as usize
    }

    pub fn one_in(&mut self, times: usize) -> bool {
        self.below(times) == 0
    }

    /// Returns a number of any width.
    pub fn wide(&mut self) -> u64 {
        let by = self.below(64);
        self.next() >> by
    }

    /// Returns a position within `len` bytes, just past them, or far beyond.
    pub fn place(&mut self, len: usize) -> usize {
        match self.below(16) {
            0 => usize::MAX - self.below(3),
            1..=7 => 0,
            _ => self.below(len + 2),
        }
    }

    /// Returns bytes of some kind: all equal, short lengths, mostly ones, or mostly zeros.
    pub fn bytes(&mut self, most: usize) -> Vec<u8> {
        let (len, kind) = (self.below(most + 1), self.below(4));
        (0..len)
            .map(|_| match kind {
                0 => self.next() as u8,
                1 => self.below(8) as u8,
                2 => (self.next() | self.next() | self.next()) as u8,
                _ => (self.next() & self.next()) as u8,
            })
            .collect()
    }

    /// Returns a value as headers have them, or of bytes with long codes.
    pub fn value(&mut self, most: usize) -> Vec<u8> {
        let (len, kind) = (self.below(most + 1), self.below(6));
        (0..len)
            .map(|_| match kind {
                0 => self.next() as u8,
                1 => b' ' + self.below(95) as u8,
                2 => b"aeiost012c"[self.below(10)],
                3 => b'A' + self.below(58) as u8,
                4 => [10, 13, 22, 255, 0, 0x80][self.below(6)],
                _ => *b"\ne".get(usize::from(!self.one_in(10))).unwrap(),
            })
            .collect()
    }

    /// Changes the bytes in one place.
    pub fn mutate(&mut self, bytes: &mut Vec<u8>) {
        if bytes.is_empty() {
            bytes.push(self.next() as u8);
            return;
        }
        let at = self.below(bytes.len());
        match self.below(7) {
            0 => bytes.push(0xff),
            1 => bytes.truncate(at),
            2 => bytes[at] ^= 1 << self.below(8),
            3 => bytes[at] = self.next() as u8,
            4 => drop(bytes.remove(at)),
            5 => bytes.insert(at, 0xff),
            _ => *bytes.last_mut().unwrap() &= 0xfe,
        }
    }
}
