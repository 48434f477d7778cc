//! Reads patterns from standard input, one a line, and prints their rule files or refusals.

use reference::lines::lines;
use reference::patterns::answer;
use std::io::{Read, Write};

fn main() -> std::io::Result<()> {
    let mut text = Vec::new();
    std::io::stdin().read_to_end(&mut text)?;
    let answers: String = lines(&text).into_iter().map(|line| answer(line) + "\n").collect();
    std::io::stdout().write_all(answers.as_bytes())
}
