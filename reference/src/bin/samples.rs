//! Reads rule files from standard input, one a line in hex digits, and prints what `rulesample` is to
//! print for each, with an empty line behind it. With a seed and a number it prints so many random rule
//! files instead.

use reference::automata::{automaton, file};
use reference::lines::{bytes, lines};
use reference::random::Random;
use reference::samples::printed;
use std::io::{Read, Write};

fn hex(file: &[u8]) -> String {
    file.iter().map(|byte| format!("{byte:02X}")).collect()
}

fn main() -> std::io::Result<()> {
    let numbers: Vec<u64> = std::env::args().skip(1).filter_map(|word| word.parse().ok()).collect();
    let mut text = Vec::new();
    let out: String = if let [seed, count] = numbers[..] {
        (0..count).map(|i| hex(&file(&automaton(&mut Random::new(seed, i)))) + "\n").collect()
    } else {
        std::io::stdin().read_to_end(&mut text)?;
        let answer = |line| bytes(line).map_or("malformed\n".to_string(), |file| printed(&file));
        lines(&text).into_iter().map(|line| answer(line) + "\n").collect()
    };
    std::io::stdout().write_all(out.as_bytes())
}
