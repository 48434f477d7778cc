//! Reads lines of `tracefollow` from standard input and prints their answers; or, given a seed and a number,
//! prints that many lists of such lines.

use reference::follow::{answers, lists};
use std::io::{Read, Write};

fn main() -> std::io::Result<()> {
    let numbers: Vec<u64> = std::env::args().skip(1).map(|number| number.parse().expect("a whole number")).collect();
    let text = match numbers.as_slice() {
        [seed, count] => lists(*seed, *count),
        _ => {
            let mut text = Vec::new();
            std::io::stdin().read_to_end(&mut text)?;
            answers(&text)
        }
    };
    std::io::stdout().write_all(text.as_bytes())
}
