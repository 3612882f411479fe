//! Integers of HPACK. The first three are the examples of RFC 7541, Appendix C.1; the others were
//! calculated manually.

use octets::Octets;
use octets_lists::integer::{IntegerError, read_integer};

/// Returns the bits before the prefix, the integer, and the offset after it.
///
/// # Requires
///
/// - `size ≤ 8`
fn read(bytes: &[u8], size: u8) -> Option<(u8, u64, usize)> {
    let mut cursor = Octets::with_slice(bytes);
    let integer = read_integer(&mut cursor, size).ok()?;
    Some((integer.mark, integer.value, cursor.off()))
}

#[test]
fn integers_of_the_rfc() {
    assert_eq!(read(&[0b1110_1010, 9], 5), Some((7, 10, 1)));
    assert_eq!(read(&[0b1011_1111, 0b1001_1010, 0b0000_1010, 9], 5), Some((5, 1337, 3)));
    assert_eq!(read(&[0b0010_1010, 9], 8), Some((0, 42, 1)));
}

/// For each size the greatest integer within the prefix, and the least one after it.
#[test]
fn integers_of_each_size() {
    assert_eq!(read(&[0b1010_1010, 9], 1), Some((85, 0, 1)));
    assert_eq!(read(&[0b1010_1011, 0, 9], 1), Some((85, 1, 2)));
    assert_eq!(read(&[0b1010_1010, 9], 2), Some((42, 2, 1)));
    assert_eq!(read(&[0b1010_1011, 0, 9], 2), Some((42, 3, 2)));
    assert_eq!(read(&[0b1010_1110, 9], 3), Some((21, 6, 1)));
    assert_eq!(read(&[0b1010_1111, 0, 9], 3), Some((21, 7, 2)));
    assert_eq!(read(&[0b1010_1110, 9], 4), Some((10, 14, 1)));
    assert_eq!(read(&[0b1010_1111, 0, 9], 4), Some((10, 15, 2)));
    assert_eq!(read(&[0b1011_1110, 9], 5), Some((5, 30, 1)));
    assert_eq!(read(&[0b1011_1111, 0, 9], 5), Some((5, 31, 2)));
    assert_eq!(read(&[0b1011_1110, 9], 6), Some((2, 62, 1)));
    assert_eq!(read(&[0b1011_1111, 0, 9], 6), Some((2, 63, 2)));
    assert_eq!(read(&[0b1111_1110, 9], 7), Some((1, 126, 1)));
    assert_eq!(read(&[0b1111_1111, 0, 9], 7), Some((1, 127, 2)));
    assert_eq!(read(&[254, 9], 8), Some((0, 254, 1)));
    assert_eq!(read(&[255, 0, 9], 8), Some((0, 255, 2)));
}

/// Ten bytes: the greatest integer is 31 + 2 to the power 63 - 1. Zeros may follow the highest
/// group of an integer.
static TEN: [u8; 11] = [31, 255, 255, 255, 255, 255, 255, 255, 255, 127, 9];

static ZEROS: [u8; 11] = [31, 129, 128, 128, 128, 128, 128, 128, 128, 0, 9];

#[test]
fn integers_of_ten_bytes() {
    assert_eq!(read(&TEN, 5), Some((0, 9_223_372_036_854_775_838, 10)));
    assert_eq!(read(&ZEROS, 5), Some((0, 32, 10)));
}

/// Returns why no integer was read, and where the offset is then.
///
/// # Requires
///
/// - `size ≤ 8`
fn refused(bytes: &[u8], size: u8) -> (Option<IntegerError>, usize) {
    let mut cursor = Octets::with_slice(bytes);
    let reason = read_integer(&mut cursor, size).err();
    (reason, cursor.off())
}

#[test]
fn integers_refused() {
    let short = (Some(IntegerError::Short), 0);
    let long = (Some(IntegerError::Long), 0);
    assert_eq!(refused(&[], 5), short);
    assert_eq!(refused(&[31], 5), short);
    assert_eq!(refused(&[31, 128], 5), short);
    assert_eq!(refused(&TEN[..9], 5), short);
    assert_eq!(refused(&[31, 128, 128, 128, 128, 128, 128, 128, 128, 128], 5), long);
    assert_eq!(refused(&[31, 128, 128, 128, 128, 128, 128, 128, 128, 128, 0], 5), long);
}
