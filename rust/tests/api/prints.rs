//! A cursor is printed like a struct of its name with two fields whose `Debug` is derived, for each flag of a format.
use octets::{Octets, OctetsMut};

mod derived {
    #[derive(Debug)]
    #[expect(dead_code, reason = "what is printed is read by `Debug` alone")]
    pub struct Octets<'a> {
        pub buf: &'a [u8],
        pub off: usize,
    }

    #[derive(Debug)]
    #[expect(dead_code, reason = "what is printed is read by `Debug` alone")]
    pub struct OctetsMut<'a> {
        pub buf: &'a mut [u8],
        pub off: usize,
    }
}

macro_rules! printed_alike {
    ($cursor:expr, $wanted:expr, $($format:literal)*) => { $(
        assert_eq!(format!($format, $cursor), format!($format, $wanted));
    )* };
}

macro_rules! each_format {
    ($cursor:expr, $wanted:expr) => {
        printed_alike!(
            $cursor, $wanted,
            "{:?}" "{:#?}" "{:x?}" "{:X?}" "{:#x?}" "{:#X?}" "{:02x?}" "{:02X?}" "{:#04x?}" "{:#06X?}"
            "{:5?}" "{:<5?}" "{:>5?}" "{:^5?}" "{:*^7?}" "{:+?}" "{:05?}" "{:#5?}" "{:.2?}" "{:+#7.1?}"
        )
    };
}

#[test]
fn each_flag_of_a_format_is_kept() {
    for (bytes, off) in [(&[][..], 0), (&[1, 2], 1), (&[0, 10, 171, 255], 4), (&[7; 40], 17)] {
        let mut cursor = Octets::with_slice(bytes);
        cursor.skip(off).unwrap();
        let wanted = derived::Octets { buf: bytes, off };
        each_format!(cursor, wanted);
        let (mut one, mut other) = (bytes.to_vec(), bytes.to_vec());
        let mut cursor = OctetsMut::with_slice(&mut one);
        cursor.skip(off).unwrap();
        let wanted = derived::OctetsMut { buf: &mut other, off };
        each_format!(cursor, wanted);
    }
}

/// The buffer's length and the offset don't fit in 16 bits.
#[test]
fn a_long_buffer_is_printed_whole() {
    let bytes: Vec<u8> = (0..70_000).map(|at| (at ^ (at >> 8)) as u8).collect();
    let off = 65_600;
    let (mut one, mut other) = (bytes.clone(), bytes.clone());
    let mut cursor = Octets::with_slice(&bytes);
    cursor.skip(off).unwrap();
    printed_alike!(cursor, derived::Octets { buf: &bytes, off }, "{:?}" "{:#?}" "{:#04x?}");
    let mut cursor = OctetsMut::with_slice(&mut one);
    cursor.skip(off).unwrap();
    let wanted = derived::OctetsMut { buf: &mut other, off };
    printed_alike!(cursor, wanted, "{:?}" "{:#?}" "{:#04x?}");
}

/// If the formatter fails, the call returns its error.
#[test]
fn an_error_of_the_formatter_is_returned() {
    struct Narrow(usize);
    impl std::fmt::Write for Narrow {
        fn write_str(&mut self, text: &str) -> std::fmt::Result {
            self.0 = self.0.checked_sub(text.len()).ok_or(std::fmt::Error)?;
            Ok(())
        }
    }
    use std::fmt::Write;
    let cursor = Octets::with_slice(&[1, 2]);
    let whole = format!("{cursor:?}").len();
    for room in 0..whole {
        assert!(write!(Narrow(room), "{cursor:?}").is_err());
    }
    assert!(write!(Narrow(whole), "{cursor:?}").is_ok());
}

#[test]
fn the_error_is_printed_by_its_name() {
    let error = octets::BufferTooShortError;
    for printed in [format!("{error}"), format!("{error:?}"), format!("{error:#?}"), format!("{error:30}")] {
        assert_eq!(printed, "BufferTooShortError");
    }
}
