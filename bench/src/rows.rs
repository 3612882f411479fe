//! Times the same loops over the calls of both libraries. Each compiler inlines the calls of its library.
use crate::inputs::{encoded, value, Random, BYTES, CALLS, FEW, MANY};
use crate::race::race;
use crate::{ours, placed, prepared, row, theirs};
use std::hint::black_box;

/// Times a loop that handles this many units.
macro_rules! read {
    ($what:expr, $unit:literal, $units:expr, $name:ident($($given:expr),*)) => {
        row(&$what, $unit, &race(
            $units,
            &mut || { placed(); ours::$name($(black_box($given)),*) as u64 },
            &mut || { placed(); theirs::$name($(black_box($given)),*) as u64 },
        ))
    };
}

/// Times a loop that writes this many units, into a buffer of this length. Both have to write the same bytes.
macro_rules! write {
    ($what:expr, $unit:literal, $units:expr, $name:ident($($given:expr),*), $room:expr) => {
        let (mut a, mut b) = (vec![0; $room], vec![0; $room]);
        row(&$what, $unit, &race(
            $units,
            &mut || { placed(); ours::$name($(black_box($given),)* &mut a) as u64 },
            &mut || { placed(); theirs::$name($(black_box($given),)* &mut b) as u64 },
        ));
        assert_eq!(a, b, "both write the same");
    };
}

fn numbers_of_a_width(random: &mut Random) {
    let bytes = random.bytes(BYTES);
    read!("`get_u8`", "call", BYTES, get_u8(&bytes));
    read!("`get_u16`", "call", BYTES / 2, get_u16(&bytes));
    read!("`get_u24`", "call", BYTES / 3, get_u24(&bytes));
    read!("`get_u32`", "call", BYTES / 4, get_u32(&bytes));
    read!("`get_u64`", "call", BYTES / 8, get_u64(&bytes));
    let given = random.numbers(0, CALLS);
    write!("`put_u8`", "call", CALLS, put_u8(&given), 8 * CALLS);
    write!("`put_u16`", "call", CALLS, put_u16(&given), 8 * CALLS);
    write!("`put_u24`", "call", CALLS, put_u24(&given), 8 * CALLS);
    write!("`put_u32`", "call", CALLS, put_u32(&given), 8 * CALLS);
    write!("`put_u64`", "call", CALLS, put_u64(&given), 8 * CALLS);
    write!("`put_varint_with_len` of 1", "call", CALLS, put_varint_in_1(&given), 8 * CALLS);
    write!("`put_varint_with_len` of 2", "call", CALLS, put_varint_in_2(&given), 8 * CALLS);
    write!("`put_varint_with_len` of 4", "call", CALLS, put_varint_in_4(&given), 8 * CALLS);
    write!("`put_varint_with_len` of 8", "call", CALLS, put_varint_in_8(&given), 8 * CALLS);
}

fn varints(random: &mut Random) {
    for (name, width, count) in [
        ("1 byte", 1, CALLS),
        ("2 bytes", 2, CALLS),
        ("4 bytes", 4, CALLS),
        ("8 bytes", 8, CALLS),
        ("any width", 0, FEW),
        ("any width, a million", 0, MANY),
    ] {
        let (given, room) = (random.numbers(width, count), 15 * count);
        let mut out = vec![0; room];
        write!(format!("`put_varint` of {name}"), "call", count, put_varint(&given), room);
        let len = prepared::put_varint(&given, &mut out);
        read!(format!("`get_varint` of {name}"), "call", count, get_varint(&out[..len]));
        if count == MANY {
            continue;
        }
        let what = format!("`put_u8`, `put_u16`, `put_varint` of {name}, `put_u32`");
        write!(what, "packet", count, put_packets(&given), room);
        let len = prepared::put_packets(&given, &mut out);
        let what = format!("`get_u8`, `get_u16`, `get_varint` of {name}, `get_u32`");
        read!(what, "packet", count, get_packets(&out[..len]));
    }
}

#[cfg(not(feature = "library"))]
fn copies(random: &mut Random) {
    let bytes = random.bytes(BYTES);
    for each in [20, 200] {
        read!(format!("`to_vec` of {each}"), "call", BYTES / each, to_vec(&bytes, each));
    }
}

fn runs(random: &mut Random) {
    let bytes = random.bytes(BYTES);
    for each in [4, 10, 64] {
        read!(format!("`get_bytes` of {each}"), "call", BYTES / each, get_bytes(&bytes, each));
    }
    let (count, bytes) = random.runs(&[]);
    read!("`get_bytes_with_u8_length`", "call", count, get_bytes_with_u8_length(&bytes));
    read!("`get_bytes_with_varint_length`", "call", count, get_bytes_with_varint_length(&bytes));
    let (count, bytes) = random.runs(&[0]);
    read!("`get_bytes_with_u16_length`", "call", count, get_bytes_with_u16_length(&bytes));
    let bytes = random.bytes(256);
    for (name, least, spread) in [
        ("4", 4, 1),
        ("10", 10, 1),
        ("64", 64, 1),
        ("1 to 8", 1, 8),
        ("1 to 32", 1, 32),
        ("1 to 64", 1, 64),
        ("1 to 256", 1, 256),
    ] {
        let lens: Vec<u64> = (0..CALLS).map(|_| least + random.next() % spread).collect();
        write!(format!("`put_bytes` of {name} bytes"), "call", CALLS, put_bytes(&lens, &bytes), 256 * CALLS);
    }
}

/// Encodes, measures and decodes values of each of these lengths, one after the other.
fn texts(kind: &str, lens: &[usize]) {
    for &each in lens {
        let bytes = if kind == "other header text" { 8 * BYTES } else { BYTES };
        let values = value(kind, bytes / each * each);
        let (size, room) = (values.len(), 4 * bytes + 16);
        let what = |does: &str| format!("{does} {kind}, {each} B");
        let (texts, lens) = encoded(&values, each);
        write!(what("encode"), "byte", size, encode(&values, each), room);
        write!(what("encode to a sink"), "byte", size, encode_to_sink(&values, each), room);
        read!(what("length of"), "byte", size, text_lens(&values, each));
        read!(what("decode"), "byte", size, decode((), &texts, &lens));
        if cfg!(feature = "library") {
            write!(what("encode in lower case"), "byte", size, encode_lower(&values, each), room);
            read!(what("length in lower case of"), "byte", size, text_lens_lower(&values, each));
            read!(what("decode under a limit"), "byte", size, decode_within((), &texts, &lens, each));
            let (mut a, mut b) = (vec![0; each], vec![0; each]);
            let times =
                race(size, &mut || ours::decode_into(black_box(&texts), black_box(&lens), &mut a) as u64, &mut || {
                    theirs::decode_into(black_box(&texts), black_box(&lens), &mut b) as u64
                });
            row(&what("decode into a slice"), "byte", &times);
        }
    }
}

pub fn rows() {
    let mut random = Random::new();
    numbers_of_a_width(&mut random);
    varints(&mut random);
    runs(&mut random);
    #[cfg(not(feature = "library"))]
    copies(&mut random);
    texts("header text", &[1, 8, 16, 24, 64, 1024, 16384]);
    if cfg!(feature = "library") {
        texts("other header text", &[8, 24, 200, 16384]);
        texts("5-bit codes", &[64, 16384]);
        texts("random bytes", &[16, 64, 16384]);
        texts("line feeds", &[16, 64, 16384]);
        texts("13-bit codes", &[16, 64, 16384]);
        texts("0 and line feed in turn", &[16, 64, 16384]);
    }
}
