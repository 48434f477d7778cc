//! The sample trace of a rule, and what `rulesample` prints.

use crate::checked::{read, CheckedRule};
use crate::rule::Automaton;
use std::collections::BTreeSet;

/// A text that the rule accepts, or one of its symbols that it does not accept.
#[derive(Clone, Copy, Debug, PartialEq)]
pub enum Wish {
    Accepted,
    Rejected,
}

/// The sets that texts lead to from the set of initial states, the empty one too, each with the first
/// text that does: shorter texts before longer ones, then by symbols. 35 where there are more than 512.
fn reached(a: &Automaton) -> Result<Vec<(u32, Vec<u8>)>, u32> {
    let mut found = vec![(a.initial, Vec::new())];
    let mut seen = BTreeSet::from([a.initial]);
    let mut at = 0;
    while at < found.len() {
        let (set, text) = found[at].clone();
        for s in 0..a.k as u8 {
            let next = a.successor(set, s);
            if seen.insert(next) {
                found.push((next, [text.as_slice(), &[s]].concat()));
            }
        }
        if found.len() > 512 { return Err(35); }
        at += 1;
    }
    Ok(found)
}

/// The sample, none where there is no such text; or the number of the first condition that holds: 3, 4,
/// 6, 8, then 35.
pub fn sample(wish: Wish, rule: &CheckedRule) -> Result<Option<Vec<u8>>, u32> {
    let a = rule.automaton()?;
    let wished = |set: u32| (set & a.finals != 0) == (wish == Wish::Accepted);
    Ok(reached(&a)?.into_iter().find(|&(set, _)| wished(set)).map(|(_, text)| text))
}

fn field(text: Option<Vec<u8>>) -> String {
    match text {
        None => "none".to_string(),
        Some(text) if text.is_empty() => "-".to_string(),
        Some(text) => text.iter().map(|byte| format!("{byte:02X}")).collect(),
    }
}

fn both(file: &[u8]) -> Result<String, u32> {
    let rule = read(file)?;
    let (accepted, rejected) = (sample(Wish::Accepted, &rule)?, sample(Wish::Rejected, &rule)?);
    Ok(format!("accepts {}\nrejects {}\n", field(accepted), field(rejected)))
}

/// What is printed for a rule file.
pub fn printed(file: &[u8]) -> String {
    both(file).unwrap_or_else(|number| format!("refused {number}\n"))
}
