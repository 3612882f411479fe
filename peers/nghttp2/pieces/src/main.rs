//! Compares decodes of encodings in pieces with nghttp2's incremental decoder.
mod check;
mod decoders;
mod encodings;
mod time;

fn main() {
    let words: Vec<String> = std::env::args().skip(1).collect();
    let numbers: Vec<u64> = words.iter().skip(1).filter_map(|word| word.parse().ok()).collect();
    match (words.first().map(String::as_str), &numbers[..]) {
        (Some("check"), &[count, seed]) => check::all(count, seed),
        (Some("time"), &[rounds]) => time::all(rounds),
        _ => {
            eprintln!("usage: pieces check COUNT SEED | pieces time ROUNDS");
            std::process::exit(2);
        }
    }
}
