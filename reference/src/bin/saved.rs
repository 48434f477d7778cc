//! Prints random lists of calls with what they answer, the judge saved now and then, and what restoring answers: of a
//! seed, and so many.

use std::io::Write;

fn main() -> std::io::Result<()> {
    let numbers: Vec<u64> = std::env::args().skip(1).filter_map(|word| word.parse().ok()).collect();
    let [seed, count] = numbers[..] else {
        eprintln!("usage: saved SEED COUNT");
        std::process::exit(2);
    };
    std::io::stdout().write_all(reference::saved::traces(seed, count).as_bytes())
}
