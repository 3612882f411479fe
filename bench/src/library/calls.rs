//! Times a thousand calls each that read or write numbers, varints and runs.
use super::exports::{self, Run};
use super::row;
use crate::race::race;
use std::hint::black_box;
use theirs::{Octets, OctetsMut};

const CALLS: usize = 1000;

/// Times a thousand reads, each from bytes like these.
macro_rules! reads {
    ($($what:literal $name:ident $bytes:expr;)*) => { $(
        let bytes = $bytes.repeat(CALLS);
        let mut ours = || {
            let (bytes, mut off, mut sum) = (black_box(&bytes[..]), 0, 0u64);
            for _ in 0..CALLS {
                let read = exports::$name(bytes, off, 0);
                off = read.off;
                sum = sum.wrapping_add(read.value as u64);
            }
            sum
        };
        let mut theirs = || {
            let (mut cursor, mut sum) = (Octets::with_slice(black_box(&bytes)), 0u64);
            for _ in 0..CALLS {
                sum = sum.wrapping_add(cursor.$name().unwrap_or(0) as u64);
            }
            sum
        };
        row($what, "call", &race(CALLS, &mut ours, &mut theirs));
    )* };
}

/// Times reads of runs after a length, from a thousand copies of these bytes.
macro_rules! runs {
    ($($what:literal $name:ident $bytes:expr;)*) => { $(
        let bytes = $bytes.repeat(CALLS);
        let mut ours = || {
            let (bytes, mut off, mut sum) = (black_box(&bytes[..]), 0, 0u64);
            for _ in 0..CALLS {
                let read = exports::$name(bytes, off, Run::default());
                off = read.off;
                sum += read.value.len as u64;
            }
            sum
        };
        let mut theirs = || {
            let (mut cursor, mut sum) = (Octets::with_slice(black_box(&bytes)), 0u64);
            for _ in 0..CALLS {
                sum += cursor.$name().map_or(0, |run| run.len()) as u64;
            }
            sum
        };
        row($what, "call", &race(CALLS, &mut ours, &mut theirs));
    )* };
}

/// Times a thousand writes into a buffer that is long enough for them.
macro_rules! writes {
    ($($what:literal $name:ident $value:expr, $width:literal;)*) => { $(
        let (mut room, mut other) = (vec![0; CALLS * $width], vec![0; CALLS * $width]);
        let mut ours = || {
            let mut off = 0;
            for _ in 0..CALLS {
                off = exports::$name(&mut room, off, black_box($value)).off;
            }
            off as u64
        };
        let mut theirs = || {
            let mut cursor = OctetsMut::with_slice(&mut other);
            for _ in 0..CALLS {
                let _ = black_box(cursor.$name(black_box($value)));
            }
            cursor.off() as u64
        };
        row($what, "call", &race(CALLS, &mut ours, &mut theirs));
        assert_eq!(room, other, "both write the same");
    )* };
}

pub fn rows() {
    reads! {
        "`get_u8`" get_u8 [0x12];
        "`get_u16`" get_u16 [0x12, 0x34];
        "`get_u24`" get_u24 [0x12, 0x34, 0x56];
        "`get_u32`" get_u32 [0x12, 0x34, 0x56, 0x78];
        "`get_u64`" get_u64 [0x12, 0x34, 0x56, 0x78, 0x9a, 0xbc, 0xde, 0xf0];
        "`get_varint` of 1 byte" get_varint [0x25];
        "`get_varint` of 2 bytes" get_varint [0x7b, 0xbd];
        "`get_varint` of 4 bytes" get_varint [0x9d, 0x7f, 0x3e, 0x7d];
        "`get_varint` of 8 bytes" get_varint [0xc2, 0x19, 0x7c, 0x5e, 0xff, 0x14, 0xe8, 0x8c];
    }
    runs! {
        "`get_bytes_with_u8_length`, 3 bytes" get_bytes_with_u8_length [3, 97, 98, 99];
        "`get_bytes_with_u16_length`, 3 bytes" get_bytes_with_u16_length [0, 3, 97, 98, 99];
        "`get_bytes_with_varint_length`, 3 bytes" get_bytes_with_varint_length [3, 97, 98, 99];
    }
    writes! {
        "`put_u8`" put_u8 0x12, 1;
        "`put_u16`" put_u16 0x1234, 2;
        "`put_u24`" put_u24 0x12_3456, 3;
        "`put_u32`" put_u32 0x1234_5678, 4;
        "`put_u64`" put_u64 0x1234_5678_9abc_def0, 8;
        "`put_varint` of 1 byte" put_varint 37, 1;
        "`put_varint` of 2 bytes" put_varint 15_293, 2;
        "`put_varint` of 4 bytes" put_varint 494_878_333, 4;
        "`put_varint` of 8 bytes" put_varint 151_288_809_941_952_652, 8;
    }
}
