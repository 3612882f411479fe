//! Times reads and writes of varints by the crate in rust/ and by quinn-proto, which reads and writes through the traits of
//! the crate `bytes`. It prints a line for each: its name, and the time of ours and of quinn's in nanoseconds.
#[path = "../../../bench/src/race.rs"]
mod race;

use bytes::Bytes;
use octets::more::{AllocError, OctetsWriterExt};
use octets::{Octets, OctetsMut};
use quinn_proto::coding::{BufExt, BufMutExt};
use std::arch::asm;
use std::hint::black_box;

/// How many varints of irregular widths are read or written in turn. A branch predictor learns the widths of a few thousand, and
/// not those of a million.
const COUNTS: [(usize, &str); 2] = [(4096, ""), (1 << 20, ", a million")];

/// How many bytes the code of the loops is moved by.
const PLACE: usize = match usize::from_str_radix(env!("BENCH_PLACE"), 10) {
    Ok(place) => place,
    Err(_) => panic!("BENCH_PLACE is a number"),
};

/// Moves the code after it by PLACE bytes.
#[inline(always)]
fn placed() {
    // SAFETY: these are instructions that do nothing.
    unsafe { asm!(".skip {}, 0x90", const PLACE, options(nomem, nostack, preserves_flags)) }
}

mod ours {
    use super::*;

    pub fn write(numbers: &[u64], out: &mut [u8]) -> usize {
        let mut cursor = OctetsMut::with_slice(out);
        for number in numbers {
            if cursor.put_varint(*number).is_err() {
                break;
            }
        }
        cursor.off()
    }

    pub fn append(numbers: &[u64], out: &mut Vec<u8>) -> Result<usize, AllocError> {
        out.clear();
        for number in numbers {
            out.write_varint(*number)?;
        }
        Ok(out.len())
    }

    pub fn read(bytes: &[u8]) -> u64 {
        let mut cursor = Octets::with_slice(bytes);
        let mut sum: u64 = 0;
        while let Ok(number) = cursor.get_varint() {
            sum = sum.wrapping_add(number);
        }
        sum
    }

    /// Reads the kind, the stream, the offset and the length of a frame, and lends as many bytes as the length says.
    fn frame<'a>(cursor: &mut Octets<'a>) -> octets::Result<(u64, &'a [u8])> {
        let numbers = [cursor.get_varint()?, cursor.get_varint()?, cursor.get_varint()?];
        let data = cursor.get_bytes_with_varint_length()?;
        Ok((numbers.into_iter().fold(0, u64::wrapping_add), data.buf()))
    }

    pub fn heads(bytes: &[u8]) -> u64 {
        let mut cursor = Octets::with_slice(bytes);
        let mut sum: u64 = 0;
        while let Ok((numbers, data)) = frame(&mut cursor) {
            sum = sum.wrapping_add(numbers).wrapping_add(data.len() as u64);
        }
        sum
    }
}

mod theirs {
    use super::*;
    use quinn_proto::coding::{Result, UnexpectedEnd};

    pub fn write(numbers: &[u64], out: &mut [u8]) -> usize {
        let room = out.len();
        let mut rest = out;
        for number in numbers {
            rest.write_var(*number);
        }
        room - rest.len()
    }

    pub fn append(numbers: &[u64], out: &mut Vec<u8>) -> usize {
        out.clear();
        for number in numbers {
            out.write_var(*number);
        }
        out.len()
    }

    pub fn read(mut rest: Bytes) -> u64 {
        let mut sum: u64 = 0;
        while let Ok(number) = rest.get_var() {
            sum = sum.wrapping_add(number);
        }
        sum
    }

    /// Reads the same from the `Bytes` of a packet, as quinn-proto does, and lends the data as a part of them.
    fn frame(rest: &mut Bytes) -> Result<(u64, Bytes)> {
        let numbers = [rest.get_var()?, rest.get_var()?, rest.get_var()?];
        let len = rest.get_var()?;
        if len > rest.len() as u64 {
            return Err(UnexpectedEnd);
        }
        Ok((numbers.into_iter().fold(0, u64::wrapping_add), rest.split_to(len as usize)))
    }

    pub fn heads(mut rest: Bytes) -> u64 {
        let mut sum: u64 = 0;
        while let Ok((numbers, data)) = frame(&mut rest) {
            sum = sum.wrapping_add(numbers).wrapping_add(data.len() as u64);
        }
        sum
    }
}

/// Times a call of both crates.
macro_rules! row {
    ($what:expr, $units:expr, $ours:expr, $theirs:expr) => {
        let times = race::race(
            $units,
            &mut || {
                placed();
                $ours as u64
            },
            &mut || {
                placed();
                $theirs as u64
            },
        );
        println!("{}\t{}\t{}", $what, times.ours, times.theirs);
    };
}

/// Returns numbers whose varints have 1, 2, 4 and 8 bytes, in an irregular order.
fn numbers(count: usize) -> Vec<u64> {
    let mut state: u64 = 88_172_645_463_325_252;
    let mut next = || {
        state ^= state << 13;
        state ^= state >> 7;
        state ^= state << 17;
        state
    };
    let bits = [6, 14, 30, 62];
    (0..count).map(|_| next() >> (64 - bits[(next() >> 60) as usize % 4])).collect()
}

/// Returns frames of 30 bytes of data, with these numbers before their lengths.
fn frames(numbers: &[u64]) -> Vec<u8> {
    let mut frames = Vec::new();
    for numbers in numbers.chunks(2) {
        let mut frame = [0; 1 + 8 + 8 + 1 + 30];
        let mut cursor = OctetsMut::with_slice(&mut frame);
        cursor.put_varint(0x0e).expect("the frame has room");
        for number in numbers {
            cursor.put_varint(*number).expect("the frame has room");
        }
        cursor.put_varint(30).expect("the frame has room");
        let len = cursor.off() + 30;
        frames.extend_from_slice(&frame[..len]);
    }
    frames
}

fn main() {
    for (count, many) in COUNTS {
        varints(count, many);
    }
}

fn varints(count: usize, many: &str) {
    let numbers = numbers(count);
    let (mut a, mut b) = (vec![0; 8 * count], vec![0; 8 * count]);
    row!(
        format!("write varints{many}"),
        count,
        ours::write(black_box(&numbers), black_box(&mut a)),
        theirs::write(black_box(&numbers), black_box(&mut b))
    );
    assert_eq!(a, b, "both write the same");
    row!(
        format!("write varints to a vector{many}"),
        count,
        ours::append(black_box(&numbers), black_box(&mut a)).expect("the vector has room"),
        theirs::append(black_box(&numbers), black_box(&mut b))
    );
    assert_eq!(a, b, "both append the same");
    a.resize(8 * count, 0);
    let written = ours::write(&numbers, &mut a);
    a.truncate(written);
    let packet = Bytes::from(a.clone());
    row!(format!("read varints{many}"), count, ours::read(black_box(&a)), theirs::read(black_box(packet.clone())));
    let frames = frames(&numbers);
    let packet = Bytes::from(frames.clone());
    row!(
        format!("read heads of STREAM frames{many}"),
        count / 2,
        ours::heads(black_box(&frames)),
        theirs::heads(black_box(packet.clone()))
    );
}
