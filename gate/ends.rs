//! A program with the macro `library!` of rattle_c, and with octets, neither of which may need Rust's std: with it there would
//! be two panic handlers. Its words are a call and a digit.
#![no_std]
#![no_main]
extern crate alloc;
extern crate octets;

rattle_c::library!();

#[link(name = "c")]
unsafe extern "C" {}

#[unsafe(no_mangle)]
pub extern "C" fn main(_count: i32, words: *const *const u8) -> i32 {
    let first = |word| unsafe { **words.add(word) };
    let number = usize::from(first(2) - b'0');
    let made = match first(1) {
        b'i' => [1, 2, 3][number],
        b'c' => alloc::vec::Vec::<u8>::with_capacity(number).capacity(),
        _ => core::hint::black_box(alloc::vec![0_u8; number]).len(),
    };
    made as i32
}
