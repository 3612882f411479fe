//! Compares the calls of both crates.

/// Compiles the items with their types, and the calls, for each of the two crates.
macro_rules! compiled {
    ($name:ident) => {
        mod $name {
            use ::$name::*;
            include!("in_rust/calls.rs");
            #[allow(dead_code)]
            mod typed {
                use ::$name::*;
                include!("../../../rust/tests/api/items.rs");
            }
        }
    };
}
compiled! { ours }
compiled! { theirs }

use crate::inputs::Numbers;
use crate::Log;
use std::any::Any;
use std::panic::{catch_unwind, set_hook, take_hook};

/// The numbers of calls that `read` and `write` know.
const READS: usize = 22;
const WRITES: usize = 37;

fn decode(log: &mut Log, text: &[u8], skip: usize, max: Option<usize>) {
    let (a, b) = (ours::decode(text, skip, max), theirs::decode(text, skip, max));
    log.compare("decode", b.0.is_some(), a, b, || format!("{text:02x?} from {skip} within {max:?}"));
}

fn encode(log: &mut Log, v: &[u8], lower: bool, capacity: usize, off: usize) {
    let input = || format!("{v:02x?} lower {lower} into {capacity} bytes off {off}");
    for as_sink in [false, true] {
        let (mut a, mut b) = (vec![0xa5; capacity], vec![0xa5; capacity]);
        let left = ours::encode(v, lower, as_sink, &mut a, off);
        let right = theirs::encode(v, lower, as_sink, &mut b, off);
        log.compare("encode", right.0, (left, a), (right, b), input);
    }
    let (a, b) = (ours::encode_to_sink(v, lower, capacity), theirs::encode_to_sink(v, lower, capacity));
    log.compare("encode to a sink", b.1.is_ok(), a, b, input);
    let (a, b) = (ours::length(v), theirs::length(v));
    log.compare("huffman_encoding_len", b.0.is_some(), a, b, input);
}

/// Returns what a call returned, or the message of its panic.
fn outcome(call: impl FnOnce() -> String + std::panic::UnwindSafe) -> Result<String, Option<String>> {
    let text = |what: &(dyn Any + Send)| match what.downcast_ref::<&str>() {
        Some(text) => Some(text.to_string()),
        None => what.downcast_ref::<String>().cloned(),
    };
    catch_unwind(call).map_err(|what| text(&*what))
}

pub fn compare(log: &mut Log, most: usize, rounds: u64, numbers: &mut Numbers) {
    panics(log);
    for len in 0..=most {
        each_string(log, len);
    }
    for _ in 0..rounds {
        round(log, numbers);
    }
}

/// Compares each panic with its message.
fn panics(log: &mut Log) {
    let hook = take_hook();
    set_hook(Box::new(|_| ()));
    for call in 0..3 {
        for v in [0, 1 << 6, (1 << 62) - 1, 1 << 62, u64::MAX] {
            for len in [0, 1, 2, 3, 4, 5, 7, 8, 9, 16, usize::MAX] {
                for capacity in [0, 1, 3, 8, 20] {
                    let a = outcome(move || ours::panicking(call, v, len, capacity));
                    let b = outcome(move || theirs::panicking(call, v, len, capacity));
                    log.compare("a panic", b.is_err(), a, b, || format!("{call} {v} {len} into {capacity} bytes"));
                }
            }
        }
    }
    set_hook(hook);
}

/// Compares the calls on every string of `len` bytes.
fn each_string(log: &mut Log, len: usize) {
    for number in 0..1u64 << (8 * len) {
        let bytes = &number.to_be_bytes()[8 - len..];
        for max in [Some(0), Some(1), Some(2), Some(3), None] {
            decode(log, bytes, 0, max);
        }
        if len <= 2 {
            decode(log, &[&[0xff, 0xff], bytes].concat(), 0, None);
            for lower in [false, true] {
                encode(log, bytes, lower, 9, 1);
            }
        }
    }
}

/// Compares calls of each cursor, one after the other, over bytes like these.
fn script(log: &mut Log, numbers: &mut Numbers, bytes: &[u8], value: &[u8]) {
    let (mut a, mut b) = (bytes.to_vec(), bytes.to_vec());
    let (mut off, mut read_off) = (0, 0);
    for _ in 0..6 {
        let n = if numbers.one_in(4) { numbers.next() as usize } else { numbers.place(bytes.len()) };
        let change = if numbers.one_in(2) { 0 } else { numbers.next() as u8 };
        let call = numbers.below(WRITES);
        let left = ours::write(&mut a, off, call, n as u64, change, value);
        let right = theirs::write(&mut b, off, call, n as u64, change, value);
        let input = || format!("{bytes:02x?} at {off} call {call} n {n} change {change} {value:02x?}");
        log.compare("a call of OctetsMut", right.1 != off, &left, &right, input);
        off = right.1;
        let call = numbers.below(READS);
        let (left, right) = (ours::read(bytes, read_off, call, n), theirs::read(bytes, read_off, call, n));
        let input = || format!("{bytes:02x?} at {read_off} call {call} n {n}");
        log.compare("a call of Octets", right.1 != read_off, &left, &right, input);
        read_off = right.1;
    }
    log.compare("what is left", true, a, b, || format!("{bytes:02x?}"));
}

/// Compares decodes of the encoding of a value, unchanged and changed.
fn text(log: &mut Log, numbers: &mut Numbers, value: &[u8]) {
    let mut text = vec![0; 4 * value.len() + 8];
    let end = theirs::encode(value, false, false, &mut text, 0).1;
    text.truncate(end);
    for _ in 0..3 {
        let max = match numbers.below(4) {
            0 => Some(numbers.below(value.len() + 2)),
            1 => Some(value.len()),
            2 => Some(usize::MAX),
            _ => None,
        };
        let skip = if numbers.one_in(4) { numbers.below(text.len() + 1) } else { 0 };
        decode(log, &text, skip, max);
        numbers.mutate(&mut text);
    }
    let off = numbers.below(8);
    let capacity = match numbers.below(3) {
        0 => end,
        1 => numbers.below(end + 1),
        _ => end + numbers.below(20),
    };
    encode(log, value, numbers.one_in(2), capacity + off, off);
}

/// Compares calls of each kind on inputs from the seed.
fn round(log: &mut Log, numbers: &mut Numbers) {
    let most = if numbers.one_in(50) { 300 } else { 24 };
    let (bytes, value) = (numbers.bytes(80), numbers.value(most));
    script(log, numbers, &bytes, &value);
    text(log, numbers, &value);
    let (bytes, skip) = (numbers.bytes(40), numbers.below(2));
    decode(log, &bytes, skip.min(bytes.len()), None);
}
