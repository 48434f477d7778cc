//! Reads lines of `mapjudge` from standard input and prints their answers; with the word `print`, a rule
//! file, and prints its profile.

use reference::mappings::{answers, printed};
use std::io::{Read, Write};

fn main() -> std::io::Result<()> {
    let mut input = Vec::new();
    std::io::stdin().read_to_end(&mut input)?;
    let output: String = match std::env::args().nth(1).as_deref() {
        Some("print") => printed(&input),
        _ => answers(&input),
    };
    std::io::stdout().write_all(output.as_bytes())
}
