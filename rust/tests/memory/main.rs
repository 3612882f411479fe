//! Tests of calls whose allocation fails: the program ends, as it does if a vector of Rust's std can't grow.
extern crate alloc;

#[cfg(feature = "more")]
mod more;
mod refusing;

use octets::{Octets, OctetsMut};
use refusing::failing_after;
use std::process::{Command, Output};

/// Runs one of this program's ignored tests in another process.
fn child(test: &str) -> Output {
    Command::new(std::env::current_exe().expect("a path"))
        .args(["--ignored", "--exact", "--nocapture", test])
        .env("RUST_BACKTRACE", "0")
        .output()
        .expect("it runs")
}

/// Asserts that the process of a test ended because an allocation of this many bytes failed, and that it printed
/// nothing after that.
fn ended_for(test: &str, bytes: usize) {
    let output = child(test);
    let said = String::from_utf8_lossy(&output.stderr);
    assert!(!output.status.success(), "{said}");
    // The process was ended by a signal of `abort`, so it didn't panic.
    #[cfg(unix)]
    assert!(std::os::unix::process::ExitStatusExt::signal(&output.status).is_some(), "{said}");
    assert!(said.contains(&format!("memory allocation of {bytes} bytes failed")), "{said}");
    assert!(!String::from_utf8_lossy(&output.stdout).contains("went on"));
}

/// A test whose assertion fails within `failing_after` fails, and doesn't hang: the panic and what follows get memory.
#[test]
fn a_panic_gets_memory() {
    let number = std::hint::black_box(7);
    let why = std::panic::catch_unwind(|| failing_after(0, || assert_eq!(number, 8))).unwrap_err();
    assert!(why.downcast::<String>().unwrap().contains("left: 7"));
    assert_eq!("a".repeat(number), "aaaaaaa");
}

#[test]
fn a_copy_that_gets_no_memory_ends_the_program() {
    ended_for("no_memory_for_a_reader", 3);
    ended_for("no_memory_for_a_writer", 2);
}

#[test]
#[ignore = "it ends the program"]
fn no_memory_for_a_reader() {
    let cursor = Octets::with_slice(b"abc");
    let (bytes, _) = failing_after(0, || cursor.to_vec());
    println!("went on with {bytes:?}");
}

#[test]
#[ignore = "it ends the program"]
fn no_memory_for_a_writer() {
    let mut bytes = *b"abc";
    let mut cursor = OctetsMut::with_slice(&mut bytes);
    cursor.skip(1).unwrap();
    let (bytes, _) = failing_after(0, || cursor.to_vec());
    println!("went on with {bytes:?}");
}

/// A number of bytes that doesn't fit in 32 bits.
#[cfg(target_pointer_width = "64")]
const HUGE: usize = (1 << 32) + 70_001;

/// Returns `HUGE` zeros, or `None` if the system doesn't allocate so many. The tests access no page of them.
#[cfg(target_pointer_width = "64")]
fn huge_zeros() -> Option<Vec<u8>> {
    Vec::<u8>::new().try_reserve_exact(HUGE).ok()?;
    Some(vec![0; HUGE])
}

#[test]
fn as_many_bytes_are_named_as_were_not_given() {
    ended_for("no_memory_for_many", 70_001);
    #[cfg(target_pointer_width = "64")]
    if huge_zeros().is_some() {
        ended_for("no_memory_for_a_huge_copy", HUGE);
        #[cfg(feature = "huffman_hpack")]
        ended_for("texts::no_memory_for_a_huge_decode", 2 * HUGE);
    }
}

#[test]
#[ignore = "it ends the program"]
fn no_memory_for_many() {
    let bytes = vec![0; 70_003];
    let mut cursor = Octets::with_slice(&bytes);
    cursor.skip(2).unwrap();
    let (bytes, _) = failing_after(0, || cursor.to_vec());
    println!("went on with {bytes:?}");
}

#[cfg(target_pointer_width = "64")]
#[test]
#[ignore = "it ends the program"]
fn no_memory_for_a_huge_copy() {
    let bytes = huge_zeros().expect("the memory");
    let (bytes, _) = failing_after(0, || Octets::with_slice(&bytes).to_vec());
    println!("went on with {bytes:?}");
}

#[test]
fn no_call_without_a_vector_allocates() {
    let mut bytes = *b"\x02ab\x00\x01c\x40\x02defghijk";
    let (_, failed) = failing_after(0, || {
        let mut cursor = OctetsMut::with_slice(&mut bytes);
        cursor.get_bytes_with_u8_length()?;
        cursor.put_bytes(b"xyz")?;
        cursor.put_varint(300)?;
        cursor.get_bytes_mut(2)?.put_u16(1)?;
        let mut cursor = Octets::with_slice(&bytes);
        cursor.skip(4)?;
        cursor.get_bytes(3)?.get_u24()?;
        cursor.get_bytes(99)
    });
    assert!(!failed);
}

/// If no byte remains, a copy reserves no memory.
#[test]
fn an_empty_copy_takes_no_memory() {
    let (bytes, failed) = failing_after(0, || Octets::with_slice(b"").to_vec());
    assert!(bytes.is_empty() && !failed);
    let (bytes, failed) = failing_after(0, || OctetsMut::with_slice(&mut []).to_vec());
    assert!(bytes.is_empty() && !failed);
}

#[test]
fn a_copy_takes_memory_once() {
    let (bytes, failed) = failing_after(1, || Octets::with_slice(&[7; 5000]).to_vec());
    assert!(bytes == [7; 5000] && !failed);
    assert_eq!(bytes.capacity(), 5000);
}

#[cfg(feature = "huffman_hpack")]
mod texts {
    use super::*;

    /// The encoding of "aaaa": four codes of five bits, and four one bits that fill the last byte.
    const TEXT: [u8; 3] = [0x18, 0xc6, 0x3f];

    #[test]
    fn a_decode_that_gets_no_memory_ends_the_program() {
        // A decode reserves two bytes for each byte that remains, or the limit if that is less.
        ended_for("texts::no_memory_for_a_decode", 6);
        ended_for("texts::no_memory_for_the_rest", 6);
        ended_for("texts::no_memory_within_a_limit", 4);
    }

    #[test]
    #[ignore = "it ends the program"]
    fn no_memory_for_a_decode() {
        let (value, _) = failing_after(0, || Octets::with_slice(&TEXT).get_huffman_decoded());
        println!("went on with {value:?}");
    }

    #[test]
    #[ignore = "it ends the program"]
    fn no_memory_for_the_rest() {
        let bytes = [&[0][..], &TEXT].concat();
        let mut cursor = Octets::with_slice(&bytes);
        cursor.skip(1).unwrap();
        let decode = || cursor.get_huffman_decoded_with_max_length(100);
        let (value, _) = failing_after(0, decode);
        println!("went on with {value:?}");
    }

    #[test]
    #[ignore = "it ends the program"]
    fn no_memory_within_a_limit() {
        let decode = || Octets::with_slice(&TEXT).get_huffman_decoded_with_max_length(4);
        let (value, _) = failing_after(0, decode);
        println!("went on with {value:?}");
    }

    #[cfg(target_pointer_width = "64")]
    #[test]
    #[ignore = "it ends the program"]
    fn no_memory_for_a_huge_decode() {
        let text = huge_zeros().expect("the memory");
        let (value, _) = failing_after(0, || Octets::with_slice(&text).get_huffman_decoded());
        println!("went on with {value:?}");
    }

    /// Two bytes for each byte of the encoding are more than a vector may have. The call accesses no page of the zeros.
    #[cfg(target_pointer_width = "32")]
    #[test]
    #[should_panic(expected = "capacity overflow")]
    fn no_vector_holds_half_of_memory() {
        const HALF: usize = (1 << 30) + 1;
        if Vec::<u8>::new().try_reserve_exact(HALF).is_err() {
            panic!("capacity overflow wasn't tried");
        }
        let _ = Octets::with_slice(&vec![0; HALF]).get_huffman_decoded();
    }

    #[test]
    fn a_decode_takes_memory_once() {
        let (value, failed) = failing_after(1, || Octets::with_slice(&TEXT).get_huffman_decoded());
        assert_eq!((value.as_deref(), failed), (Ok(&b"aaaa"[..]), false));
    }

    #[test]
    fn an_encode_takes_none() {
        let mut bytes = [0; 9];
        let (_, failed) = failing_after(0, || OctetsMut::with_slice(&mut bytes).put_huffman_encoded::<true>(b"AAAA"));
        assert!(!failed);
        assert_eq!(bytes[..3], TEXT);
    }
}
