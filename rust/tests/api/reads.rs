//! Tests of reads.
use octets::{BufferTooShortError, Octets, OctetsMut};

/// A length of 2^32 + 2 is the length 2 in a number of 32 bits.
#[test]
fn no_length_is_cut_to_32_bits() {
    let mut bytes = [0xc0, 0, 0, 1, 0, 0, 0, 2, 9, 9, 9];
    let mut b = Octets::with_slice(&bytes);
    assert_eq!((b.get_bytes_with_varint_length(), b.off()), (Err(BufferTooShortError), 8));
    let mut b = OctetsMut::with_slice(&mut bytes);
    assert!(b.get_bytes_with_varint_length().is_err());
    assert_eq!(b.off(), 8);
}
