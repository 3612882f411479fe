//! `upstream SEED ROUNDS [LEN]` compares each call with that of the crate `octets` 0.3.7: on every
//! string of up to LEN bytes (2 if LEN isn't given), and in that many rounds on inputs that are
//! generated from the seed.
mod in_rust;
#[allow(dead_code)]
mod inputs;

use in_rust::compare;
use inputs::Numbers;
use std::collections::BTreeMap;
use std::fmt::Debug;
use std::process::ExitCode;

#[derive(Default)]
struct Count {
    made: u64,
    done: u64,
    differ: u64,
}

/// For each call, the number of comparisons, of those in which it succeeded, and of those that differ.
#[derive(Default)]
pub struct Log(BTreeMap<&'static str, Count>);

impl Log {
    /// Compares the result of a call with the expected one, and prints the first differences.
    pub fn compare<T: PartialEq + Debug>(
        &mut self,
        call: &'static str,
        done: bool,
        ours: T,
        theirs: T,
        input: impl FnOnce() -> String,
    ) {
        let count = self.0.entry(call).or_default();
        count.made += 1;
        count.done += u64::from(done);
        if ours != theirs {
            count.differ += 1;
            if count.differ <= 3 {
                println!("{call} differs at {}: {ours:?}, and the Rust crate {theirs:?}", input());
            }
        }
    }

    /// Prints the counts, and returns how many comparisons were made and how many differ.
    pub fn print(&self) -> (u64, u64) {
        let (mut made, mut differ) = (0, 0);
        println!("| Call | Comparisons | Done | Differ |\n|---|---|---|---|");
        for (call, count) in &self.0 {
            println!("| `{call}` | {} | {} | {} |", count.made, count.done, count.differ);
            made += count.made;
            differ += count.differ;
        }
        (made, differ)
    }
}

fn main() -> ExitCode {
    let words = std::env::args().skip(1).map(|w| w.parse().expect("a number"));
    let words: Vec<u64> = words.collect();
    let [seed, rounds, ..] = words[..] else {
        eprintln!("usage: upstream SEED ROUNDS [LEN]");
        return ExitCode::FAILURE;
    };
    let most = words.get(2).map_or(2, |len| *len as usize);
    let mut log = Log::default();
    compare(&mut log, most, rounds, &mut Numbers::new(seed));
    let (made, differ) = log.print();
    println!("seed {seed}, {rounds} rounds, every string of up to {most} bytes");
    println!("{} passed, {differ} failed", made - differ);
    if differ == 0 {
        ExitCode::SUCCESS
    } else {
        ExitCode::FAILURE
    }
}
