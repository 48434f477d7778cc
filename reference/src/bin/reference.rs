//! Reads lists of calls from standard input and prints the answers.

use std::io::{Read, Write};

fn main() -> std::io::Result<()> {
    let mut text = Vec::new();
    std::io::stdin().read_to_end(&mut text)?;
    std::io::stdout().write_all(reference::lines::answers(&text).as_bytes())
}
