//! Times our calls and those of the crate `octets` 0.3.7. Both are called in one process.
//!
//! With the feature `library` our calls are those of the static library and of loops that rt compiled, and the program
//! prints tables in Markdown. Otherwise they are those of the crate in rust/, which rustc inlines as it does those of the
//! other crate. The program then prints a line for each loop: its name, and the time of ours and of theirs in nanoseconds.
mod inputs;
#[cfg(feature = "library")]
mod library;
mod race;
mod rows;

#[cfg(feature = "library")]
use library::{ours, row};

#[cfg(not(feature = "library"))]
#[allow(dead_code)]
mod ours {
    include!(concat!(env!("OUT_DIR"), "/ours.rs"));
}

#[allow(dead_code)]
mod theirs {
    include!(concat!(env!("OUT_DIR"), "/theirs.rs"));
}

/// The loops over the other crate once more, which prepare the inputs, so that these aren't counted.
#[allow(dead_code)]
mod prepared {
    include!(concat!(env!("OUT_DIR"), "/theirs.rs"));
}

/// How many bytes the code of the loops is moved by.
const PLACE: usize = match option_env!("BENCH_PLACE") {
    None => 0,
    Some(place) => match usize::from_str_radix(place, 10) {
        Ok(place) => place,
        Err(_) => panic!("BENCH_PLACE is a number"),
    },
};

/// Moves the code after it by PLACE bytes.
#[inline(always)]
fn placed() {
    // SAFETY: these are instructions that do nothing.
    unsafe {
        std::arch::asm!(".skip {}, 0x90", const PLACE, options(nomem, nostack, preserves_flags));
    }
}

#[cfg(not(feature = "library"))]
fn row(what: &str, _unit: &str, times: &race::Times) {
    println!("{what}\t{}\t{}", times.ours, times.theirs);
}

fn main() {
    #[cfg(feature = "library")]
    library::tables();
    #[cfg(not(feature = "library"))]
    rows::rows();
}
