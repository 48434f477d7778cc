//! Judges a trace of two chunks, the second first, by the rule that accepts what ends in 0 1.
use bellbadger::{Judge, Refused};

const RULE: [u8; 30] = [
    3, 2, 1, 0, 0, 0, 4, 0, 0, 0, 22, 0, 6, 0, 28, 0, 2, 0, 30, 0, 0, 0, 0, 0, 0, 1, 1, 0, 1, 2,
];

fn main() -> Result<(), Refused> {
    let mut judge = Judge::new();
    let _loaded = judge.load(&RULE)?;
    judge.open(2)?;
    let _looked = judge.deliver(1, 0, &[1])?;
    let _looked = judge.deliver(0, 0, &[0])?;
    let yes = judge.verdict()?.is_yes();
    println!("{}", if yes { "yes" } else { "no" });
    Ok(())
}
