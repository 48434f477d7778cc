//! Prints random lists of calls: `generate SEED LISTS [LONGEST]`. With LONGEST, a list that has
//! more characters than that is passed over.

use reference::lists;
use std::io::Write;

fn main() -> std::io::Result<()> {
    let numbers: Option<Vec<u64>> = std::env::args().skip(1).map(|word| word.parse().ok()).collect();
    let (seed, count, longest) = match numbers.as_deref() {
        Some(&[seed, count]) => (seed, count, usize::MAX),
        Some(&[seed, count, longest]) => (seed, count, longest as usize),
        _ => {
            eprintln!("usage: generate SEED LISTS [LONGEST]");
            std::process::exit(2);
        }
    };
    let size = |list: &Vec<Vec<u8>>| list.iter().map(|line| line.len() + 1).sum::<usize>();
    let all = (0..).map(|index| lists::list(seed, index));
    let chosen: Vec<_> = all.filter(|list| size(list) <= longest).take(count as usize).collect();
    std::io::stdout().write_all(&lists::text(&chosen))
}
