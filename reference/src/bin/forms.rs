//! Reads rule files from standard input, one a line in hex digits, and prints what `ruleform` is to print
//! for each, with an empty line behind it. With the word `back` it reads lines of `formtable` and answers
//! them instead.

use reference::forms::{answer, printed};
use reference::lines::{bytes, lines};
use std::io::{Read, Write};

fn main() -> std::io::Result<()> {
    let back = std::env::args().nth(1).as_deref() == Some("back");
    let mut text = Vec::new();
    std::io::stdin().read_to_end(&mut text)?;
    let form = |line| bytes(line).map_or("malformed\n".to_string(), |file| printed(&file));
    let one = |line| if back { answer(line) } else { form(line) };
    let out: String = lines(&text).into_iter().map(|line| one(line) + "\n").collect();
    std::io::stdout().write_all(out.as_bytes())
}
