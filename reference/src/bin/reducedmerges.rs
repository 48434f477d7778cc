//! Prints random pairs of rules with what merging them reduced answers: of a seed, and so many.

use std::io::Write;

fn main() -> std::io::Result<()> {
    let numbers: Vec<u64> = std::env::args().skip(1).filter_map(|word| word.parse().ok()).collect();
    let [seed, count] = numbers[..] else {
        eprintln!("usage: reducedmerges SEED COUNT");
        std::process::exit(2);
    };
    std::io::stdout().write_all(reference::reducedmerges::pairs(seed, count).as_bytes())
}
