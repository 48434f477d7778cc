//! Reads lines of `rulemerge` from standard input and prints their answers.

use reference::lines::lines;
use reference::merges::answer;
use std::io::{Read, Write};

fn main() -> std::io::Result<()> {
    let mut text = Vec::new();
    std::io::stdin().read_to_end(&mut text)?;
    let answers: String = lines(&text).into_iter().map(|line| answer(line) + "\n").collect();
    std::io::stdout().write_all(answers.as_bytes())
}
