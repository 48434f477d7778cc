//! Prints random chunks with their summaries, and lists of these with what they come to: of a seed, and so many.

use std::io::Write;

fn main() -> std::io::Result<()> {
    let numbers: Vec<u64> = std::env::args().skip(1).filter_map(|word| word.parse().ok()).collect();
    let [seed, count] = numbers[..] else {
        eprintln!("usage: summaries SEED COUNT");
        std::process::exit(2);
    };
    std::io::stdout().write_all(reference::summaries::traces(seed, count).as_bytes())
}
