// Erased from crates/octets_literal/src/laws.rt by tools/erase.
//! Laws of literals. The contract of each function is the law; the functions do nothing.
use rattle_std::{self as std, prelude::*};

use octets_code::laws::answers_decided;

/// The integers of RFC 7541, Appendix C.1, are read and written as that appendix shows.
///
/// ```
/// # use octets_literal::*;
/// # use octets::*;
/// // 1337 after three bits of something else is 1f 9a 0a.
/// octets_literal::laws::appendix_integers();
/// ```
#[inline]
pub fn appendix_integers() {}

/// At most one prefix of a list of bytes is a literal, and it is a literal of one value.
///
/// ```
/// # use octets_literal::*;
/// # use octets::*;
/// # let alloc = rattle_std::alloc::Global;
/// octets_literal::laws::literal_once();
/// let mut cursor = Octets::with_slice(&[2, 97, 98, 7]);
/// assert_eq!(&*get_string(alloc, &mut cursor, 9)?, b"ab");
/// assert_eq!(cursor.off(), 3);
/// # Ok::<(), Box<dyn core::error::Error>>(())
/// ```
#[inline]
pub fn literal_once() {}

/// What is written for a value is a literal of the value, and its length is the shortest integer
/// (RFC 7541, section 5.1).
///
/// ```
/// # use octets_literal::*;
/// # use octets::*;
/// # let alloc = rattle_std::alloc::Global;
/// octets_literal::laws::written_read_back();
/// let mut bytes = [0, 0, 0];
/// write_string::<false>(&mut OctetsMut::with_slice(&mut bytes), b"aa")?;
/// let read = get_string(alloc, &mut Octets::with_slice(&bytes), 2)?;
/// assert_eq!(&*read, b"aa");
/// # Ok::<(), Box<dyn core::error::Error>>(())
/// ```
#[inline]
pub fn written_read_back() {}

/// Except for allocation failures, a read of some bytes fails with at most one error. If it fails
/// with one, the bytes begin with no literal of a value within the limit.
///
/// ```
/// # use octets_literal::*;
/// # use octets::*;
/// # let alloc = rattle_std::alloc::Global;
/// octets_literal::laws::refused_once();
/// let read = get_string(alloc, &mut Octets::with_slice(&[2, 97]), 9);
/// assert_eq!(read.err(), Some(LiteralError::Short));
/// ```
#[inline]
pub fn refused_once() {}

/// Either bytes begin with a literal of a value within the limit, or a read of them fails with an
/// error other than `OutOfMemory`.
///
/// ```
/// # use octets_literal::*;
/// # use octets::*;
/// # let alloc = rattle_std::alloc::Global;
/// octets_literal::laws::each_decided();
/// assert!(get_string(alloc, &mut Octets::with_slice(&[0]), 9)?.is_empty());
/// assert!(get_string(alloc, &mut Octets::with_slice(&[1]), 9).is_err());
/// # Ok::<(), Box<dyn core::error::Error>>(())
/// ```
#[inline]
pub fn each_decided() {
    answers_decided();
}
