//! Tests of the writes of numbers, varints and byte strings to any sink.
#![cfg(feature = "more")]
use octets::more::{AllocError, OctetsWriterExt, varint_fits};
use octets::{BufferTooShortError, MAX_VAR_INT, Octets, OctetsMut, OctetsWriter};
use std::panic::{UnwindSafe, catch_unwind};

/// A sink that keeps the bytes and the length of each piece. Of a piece that doesn't fit, it keeps the prefix that fits,
/// or nothing if it is whole.
struct Pieces {
    bytes: Vec<u8>,
    lengths: Vec<usize>,
    room: usize,
    is_whole: bool,
}

impl Pieces {
    fn new(room: usize, is_whole: bool) -> Self {
        Self { bytes: Vec::new(), lengths: Vec::new(), room, is_whole }
    }
}

impl OctetsWriter for Pieces {
    type Error = &'static str;

    fn put_bytes(&mut self, v: &[u8]) -> Result<(), &'static str> {
        let left = self.room - self.bytes.len();
        if v.len() > left {
            let kept = if self.is_whole { 0 } else { left };
            self.bytes.extend(&v[..kept]);
            return Err("full");
        }
        self.bytes.extend(v);
        self.lengths.push(v.len());
        Ok(())
    }
}

/// A sink on which each call fails.
struct Failing(usize);

impl OctetsWriter for Failing {
    type Error = ();

    fn put_bytes(&mut self, _: &[u8]) -> Result<(), ()> {
        self.0 += 1;
        Err(())
    }
}

/// A call, made on a sink of any type.
#[derive(Clone, Copy, Debug)]
enum Call {
    U8(u8),
    U16(u16),
    U24(u32),
    U32(u32),
    U64(u64),
    Varint(u64),
    Wide(u64, usize),
    Run(&'static [u8]),
}
use Call::*;

impl Call {
    fn on<W: OctetsWriter + ?Sized>(self, sink: &mut W) -> Result<(), W::Error> {
        match self {
            U8(v) => sink.write_u8(v),
            U16(v) => sink.write_u16(v),
            U24(v) => sink.write_u24(v),
            U32(v) => sink.write_u32(v),
            U64(v) => sink.write_u64(v),
            Varint(v) => sink.write_varint(v),
            Wide(v, len) => sink.write_varint_with_len(v, len),
            Run(v) => sink.write_bytes_with_varint_length(v),
        }
    }
}

/// Calls, what they write, and the length of each piece. The varints of the first values are the examples of RFC 9000,
/// appendix A.1.
const CALLS: [(Call, &[u8], &[usize]); 29] = [
    (Varint(151_288_809_941_952_652), b"\xc2\x19\x7c\x5e\xff\x14\xe8\x8c", &[8]),
    (Varint(494_878_333), b"\x9d\x7f\x3e\x7d", &[4]),
    (Varint(15_293), b"\x7b\xbd", &[2]),
    (Varint(37), b"\x25", &[1]),
    (Wide(37, 2), b"\x40\x25", &[2]),
    (Wide(37, 1), b"\x25", &[1]),
    (Wide(37, 4), b"\x80\0\0\x25", &[4]),
    (Wide(37, 8), b"\xc0\0\0\0\0\0\0\x25", &[8]),
    (Wide(16_383, 2), b"\x7f\xff", &[2]),
    (Wide((1 << 30) - 1, 4), b"\xbf\xff\xff\xff", &[4]),
    (Wide(MAX_VAR_INT, 8), b"\xff\xff\xff\xff\xff\xff\xff\xff", &[8]),
    (Varint(0), b"\0", &[1]),
    (Varint(63), b"\x3f", &[1]),
    (Varint(64), b"\x40\x40", &[2]),
    (Varint(16_383), b"\x7f\xff", &[2]),
    (Varint(16_384), b"\x80\0\x40\0", &[4]),
    (Varint((1 << 30) - 1), b"\xbf\xff\xff\xff", &[4]),
    (Varint(1 << 30), b"\xc0\0\0\0\x40\0\0\0", &[8]),
    (Varint(MAX_VAR_INT), b"\xff\xff\xff\xff\xff\xff\xff\xff", &[8]),
    (U8(0x01), b"\x01", &[1]),
    (U16(0x0102), b"\x01\x02", &[2]),
    (U24(0x010203), b"\x01\x02\x03", &[3]),
    (U24(0xf901_0203), b"\x01\x02\x03", &[3]),
    (U32(0x0102_0304), b"\x01\x02\x03\x04", &[4]),
    (U64(0x0102_0304_0506_0708), b"\x01\x02\x03\x04\x05\x06\x07\x08", &[8]),
    (Run(b""), b"\0", &[1]),
    (Run(b"a"), b"\x01a", &[1, 1]),
    (Run(&[b'b'; 63]), b"\x3fbbbbbbbbbbbbbbbbbbbbbbbbbbbbbbbbbbbbbbbbbbbbbbbbbbbbbbbbbbbbbbb", &[1, 63]),
    (Run(&[b'b'; 64]), b"\x40\x40bbbbbbbbbbbbbbbbbbbbbbbbbbbbbbbbbbbbbbbbbbbbbbbbbbbbbbbbbbbbbbbb", &[2, 64]),
];

#[test]
fn each_sink_gets_the_bytes() {
    for (call, bytes, lengths) in CALLS {
        let mut pieces = Pieces::new(99, true);
        assert_eq!((call.on(&mut pieces), &pieces.bytes[..]), (Ok(()), bytes), "{call:?}");
        assert_eq!(pieces.lengths, lengths, "{call:?}");
        let mut vector = vec![9];
        assert_eq!((call.on(&mut vector), &vector[1..]), (Ok(()), bytes), "{call:?}");
        let mut room = [0xee; 80];
        let mut cursor = OctetsMut::with_slice(&mut room);
        assert_eq!((call.on(&mut cursor), cursor.off()), (Ok(()), bytes.len()), "{call:?}");
        assert!(room.starts_with(bytes) && room[bytes.len()..].iter().all(|byte| *byte == 0xee));
        let object: &mut dyn OctetsWriter<Error = AllocError> = &mut vector;
        assert_eq!((call.on(object), vector.len()), (Ok(()), 1 + 2 * bytes.len()), "{call:?}");
    }
}

/// A sink that is whole keeps the pieces that fit, and another one all bytes that fit.
#[test]
fn a_sink_that_is_full_has_a_prefix() {
    for (call, bytes, lengths) in CALLS {
        for room in 0..bytes.len() {
            let mut pieces = Pieces::new(room, false);
            assert_eq!((call.on(&mut pieces), &pieces.bytes[..]), (Err("full"), &bytes[..room]), "{call:?}");
            let kept = if room < lengths[0] { 0 } else { lengths[0] };
            let mut pieces = Pieces::new(room, true);
            assert_eq!((call.on(&mut pieces), &pieces.bytes[..]), (Err("full"), &bytes[..kept]), "{call:?}");
            let mut buffer = vec![0xee; room];
            let mut cursor = OctetsMut::with_slice(&mut buffer);
            assert_eq!((call.on(&mut cursor), cursor.off()), (Err(BufferTooShortError), kept), "{call:?}");
            assert!(buffer[..kept] == bytes[..kept] && buffer[kept..].iter().all(|byte| *byte == 0xee));
        }
        let mut pieces = Pieces::new(bytes.len(), true);
        assert_eq!(call.on(&mut pieces), Ok(()), "{call:?}");
    }
}

#[test]
fn the_first_error_is_the_last_call() {
    for (call, ..) in CALLS {
        let mut sink = Failing(0);
        assert_eq!((call.on(&mut sink), sink.0), (Err(()), 1), "{call:?}");
    }
}

/// What is written in turn to one sink is read back by a cursor.
#[test]
fn numbers_are_read_back() {
    let mut state: u64 = 88_172_645_463_325_252;
    for _ in 0..10_000 {
        state ^= state << 13;
        state ^= state >> 7;
        state ^= state << 17;
        let (number, bits) = (state, state % 63);
        let varint = number & ((1 << bits) - 1);
        let run = number.to_le_bytes();
        let mut bytes = Vec::new();
        bytes.write_u8(number as u8).unwrap();
        bytes.write_u16(number as u16).unwrap();
        bytes.write_u24(number as u32).unwrap();
        bytes.write_u32(number as u32).unwrap();
        bytes.write_u64(number).unwrap();
        bytes.write_varint(varint).unwrap();
        bytes.write_varint_with_len(varint, 8).unwrap();
        bytes.write_bytes_with_varint_length(&run).unwrap();
        let mut cursor = Octets::with_slice(&bytes);
        assert_eq!(cursor.get_u8(), Ok(number as u8));
        assert_eq!(cursor.get_u16(), Ok(number as u16));
        assert_eq!(cursor.get_u24(), Ok(number as u32 % (1 << 24)));
        assert_eq!(cursor.get_u32(), Ok(number as u32));
        assert_eq!(cursor.get_u64(), Ok(number));
        assert_eq!(cursor.get_varint_shortest(), Ok(varint));
        assert_eq!(cursor.get_varint(), Ok(varint));
        assert_eq!(cursor.get_bytes_with_varint_length().unwrap().buf(), run);
        assert_eq!(cursor.cap(), 0);
    }
}

fn message(call: impl FnOnce() + UnwindSafe) -> String {
    let Err(what) = catch_unwind(call) else {
        return String::new();
    };
    what.downcast_ref::<&str>().expect("a message").to_string()
}

/// The calls panic before they call the sink, whether or not it would fail.
#[test]
fn what_no_varint_holds_panics() {
    for v in [1 << 62, (1 << 62) + 37, 1 << 63, u64::MAX] {
        let unreachable = "internal error: entered unreachable code";
        assert_eq!(message(move || _ = Failing(0).write_varint(v)), unreachable);
        assert_eq!(message(move || _ = Vec::new().write_varint(v)), unreachable);
    }
    let large = "value is too large for varint";
    for (width, most) in [(1, 63), (2, 16_383), (4, (1 << 30) - 1), (8, MAX_VAR_INT)] {
        assert!(varint_fits(most, width));
        assert_eq!(message(move || _ = Vec::new().write_varint_with_len(most, width)), "");
        for v in [most + 1, u64::MAX] {
            assert_eq!(message(move || _ = Failing(0).write_varint_with_len(v, width)), large, "{v} in {width}");
        }
    }
    for width in [0, 3, 5, 6, 7, 9, 16, 257, usize::MAX] {
        for v in [0, 37] {
            assert_eq!(message(move || _ = Vec::new().write_varint_with_len(v, width)), large, "{v} in {width}");
        }
    }
}
