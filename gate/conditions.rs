//! Calls functions of erased crates with arguments at the ends of what their conditions allow, and with arguments that
//! break a condition. With the latter a call has to panic with the clause, in a line of this file. gate/ship builds this
//! program with the feature `checked` and without it.
use octets::{Cursor, Octets, OctetsMut, varint_len};
use std::panic::{AssertUnwindSafe, catch_unwind};
use std::sync::Mutex;

/// The file in which the last call panicked.
static FILE: Mutex<String> = Mutex::new(String::new());

fn ignore<T>(_: T) {}

/// What a call panics with, or nothing.
fn panic_of(call: impl FnOnce()) -> Option<String> {
    let why = catch_unwind(AssertUnwindSafe(call)).err()?;
    Some(match why.downcast::<&str>() {
        Ok(text) => text.to_string(),
        Err(why) => *why.downcast::<String>().unwrap_or_default(),
    })
}

fn main() {
    std::panic::set_hook(Box::new(|why| *FILE.lock().unwrap() = why.location().unwrap().file().to_string()));
    let mut bytes = [0; 16];
    let mut calls: Vec<(&str, Box<dyn FnMut(&mut [u8])>)> = vec![
        ("", Box::new(|_| ignore(varint_len((1 << 62) - 1)))),
        ("`varint_len` requires `v < 2 ^ 62`", Box::new(|_| ignore(varint_len(1 << 62)))),
        ("`varint_len` requires `v < 2 ^ 62`", Box::new(|_| ignore(varint_len(u64::MAX)))),
        ("", Box::new(|b| ignore(OctetsMut::with_slice(b).write_varint((1 << 62) - 1)))),
        ("`write_varint` requires `v < 2 ^ 62`", Box::new(|b| ignore(OctetsMut::with_slice(b).write_varint(1 << 62)))),
        ("`put_varint` requires `v < 2 ^ 62`", Box::new(|b| ignore(OctetsMut::with_slice(b).put_varint(1 << 62).is_ok()))),
        ("", Box::new(|b| ignore(OctetsMut::with_slice(b).write_varint_with_len(63, 1)))),
        ("`write_varint_with_len` requires `v < 2 ^ (8 * len - 2)`", Box::new(|b| ignore(OctetsMut::with_slice(b).write_varint_with_len(64, 1)))),
        ("`write_varint_with_len` requires `IsWidth len`", Box::new(|b| ignore(OctetsMut::with_slice(b).write_varint_with_len(1, 3)))),
        ("`put_varint_with_len` requires `v < 2 ^ (8 * len - 2)`", Box::new(|b| ignore(OctetsMut::with_slice(b).put_varint_with_len(1 << 30, 4).is_ok()))),
        ("", Box::new(|b| ignore(OctetsMut::with_slice(b).lend(16).len()))),
        ("`lend` requires `len ≤ length (rest self.old)`", Box::new(|b| ignore(OctetsMut::with_slice(b).lend(17).len()))),
        ("`lend_ahead` requires `len ≤ length (rest self.old)`", Box::new(|b| {
            let mut cursor = OctetsMut::with_slice(b);
            let _ = cursor.skip(9);
            ignore(cursor.lend_ahead(8).len())
        })),
        ("", Box::new(|b| {
            let mut cursor = OctetsMut::with_slice(b);
            let _ = cursor.skip(9);
            ignore(cursor.lend_last(16).len())
        })),
        ("`lend_last` requires `len ≤ length (bytes self.old)`", Box::new(|b| ignore(OctetsMut::with_slice(b).lend_last(17).len()))),
        ("`put_record` requires `length value.now < 256`", Box::new(|b| ignore(octets_lists::records::put_record(&mut Cursor::with_buffer(b), 1, &[0; 256])))),
        ("", Box::new(|b| ignore(octets_lists::records::put_record(&mut Cursor::with_buffer(b), 1, &[0; 255])))),
        ("`put_message` requires `4 + length sections.now < 2 ^ 16`", Box::new(|b| ignore(octets_formats::message::put_message(&mut Cursor::with_buffer(b), 1, 2, &[0; 65532])))),
        ("", Box::new(|b| ignore(octets_formats::message::put_message(&mut Cursor::with_buffer(b), 1, 2, &[0; 65531])))),
    ];
    let checked = std::env::args().nth(1).as_deref() == Some("checked");
    let (mut passed, mut failed) = (0, 0);
    for (wanted, call) in &mut calls {
        let found = panic_of(|| call(&mut bytes));
        let is_right = match &found {
            None => wanted.is_empty() || !checked,
            // Without the checks a call may still panic, by an index, but not with a clause.
            Some(said) => checked && said == wanted && *FILE.lock().unwrap() == file!() || !checked && !said.contains("requires"),
        };
        if is_right {
            passed += 1;
        } else {
            failed += 1;
            println!("conditions: {wanted:?}: {found:?} in {}", FILE.lock().unwrap());
        }
    }
    let _ = Octets::with_slice(&bytes);
    println!("{passed} passed, {failed} failed");
}
