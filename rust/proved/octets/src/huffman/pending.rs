// Erased from crates/octets/src/huffman/pending.rt by tools/erase.
//! The bits of codes that don't fill a word yet.
use rattle_std::{self as std, prelude::*};

use octets_code::code_of;

/// The bits of codes that don't fill a word of 64 bits yet (RFC 7541, section 5.2). There are fewer
/// than 64 of them. With this type you can write an encoder of your own that stops at any byte and
/// continues in a later call. In a contract a `Pending` is the list of its bits.
pub struct Pending {
    count: u32,
    bits: u64,
}

impl Pending {
    /// Returns a value with no bits.
    ///
    /// ```
    /// # use octets_verified::*;
    /// let mut pending = Pending::new();
    /// assert!(pending.push_code(b'a').is_none());
    /// assert_eq!(pending.count(), 5);
    /// ```
    #[inline]
    pub fn new() -> Pending {
        Pending { count: 0, bits: 0 }
    }

    /// Returns the bits of the code of `byte`.
    #[inline]
    pub(super) fn of_byte(byte: u8) -> Pending {
        let code = code_of(u16::from(byte));
        let count = u32::from(code.len);
        Pending {
            count,
            bits: u64::from(code.bits) << (64 - count),
        }
    }

    /// Returns the `count` most significant bits of `bits`, most significant bit first. The other
    /// bits of `bits` must be zero.
    ///
    /// ```
    /// # use octets_verified::*;
    /// let pending = Pending::of_bits(5, 0x1800000000000000);
    /// assert_eq!(pending.count(), 5);
    /// ```
    ///
    /// # Requires
    ///
    /// - `count < 64`
    /// - `bits % 2 ^ (64 - count) ≡ 0`
    #[inline]
    #[cfg_attr(feature = "checked", track_caller)]
    pub fn of_bits(count: u32, bits: u64) -> Pending {
        #[cfg(feature = "checked")]
        ::core::assert!((count as u128) < 64u128, "`of_bits` requires `count < 64`");
        Pending { count, bits }
    }

    /// Returns the number of bits.
    ///
    /// ```
    /// # use octets_verified::*;
    /// assert_eq!(Pending::new().count(), 0);
    /// ```
    #[inline]
    pub fn count(&self) -> u32 {
        self.count
    }

    /// Returns the bits as the most significant bits of a word, whose other bits are zero.
    ///
    /// ```
    /// # use octets_verified::*;
    /// let mut pending = Pending::new();
    /// assert!(pending.push_code(b'a').is_none());
    /// assert_eq!(pending.bits(), 0x1800000000000000);
    /// ```
    #[inline]
    pub fn bits(&self) -> u64 {
        self.bits
    }

    #[inline]
    pub(super) fn is_empty(&self) -> bool {
        self.count == 0
    }

    /// Returns how many bytes the bits need.
    #[inline]
    pub(super) fn byte_len(&self) -> usize {
        (self.count as usize + 7) / 8
    }

    /// Adds the code of `byte`. If there are now at least 64 bits, it takes the first 64 and
    /// returns them.
    ///
    /// ```
    /// # use octets_verified::*;
    /// let mut pending = Pending::of_bits(63, 0);
    /// assert_eq!(pending.push_code(b'a'), Some(0));
    /// assert_eq!(pending.count(), 4);
    /// ```
    #[inline]
    pub fn push_code(&mut self, byte: u8) -> Option<u64> {
        let code = code_of(u16::from(byte));
        self.push_bits(u32::from(code.len), u64::from(code.bits))
    }

    /// Adds the codes of two bytes at once. If there are now at least 64 bits, it takes the first
    /// 64 and returns them.
    #[inline]
    pub(super) fn push_pair(&mut self, first: u8, second: u8) -> Option<u64> {
        let first = code_of(u16::from(first));
        let second = code_of(u16::from(second));
        let len = u32::from(second.len);
        let bits = u64::from(first.bits) << len | u64::from(second.bits);
        self.push_bits(u32::from(first.len) + len, bits)
    }

    /// Adds the lowest `len` bits of `bits`, whose other bits must be zero. If there are now at
    /// least 64 bits, it takes the first 64 and returns them.
    ///
    /// # Requires
    ///
    /// - `1 ≤ len`
    /// - `len ≤ 60`
    /// - `bits < 2 ^ len`
    #[inline]
    fn push_bits(&mut self, len: u32, bits: u64) -> Option<u64> {
        let count = self.count + len;
        if count < 64 {
            self.bits |= bits << (64 - count);
            self.count = count;
            return None;
        }
        let over = count - 64;
        let word = self.bits | bits >> over;
        // There are two shifts since `over` may be 0, and a shift by 64 bits would overflow.
        self.bits = bits << 1 << (63 - over);
        self.count = over;
        Some(word)
    }

    /// Returns the bits as the most significant bits of a word, whose other bits are ones.
    ///
    /// # Requires
    ///
    /// - `0 < length self.now`
    #[inline]
    pub(super) fn last_word(&self) -> u64 {
        self.bits | u64::MAX >> self.count
    }
}
