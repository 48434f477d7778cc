//! Two rules made one, and the lines of `rulemerge`, which compares and reduces too.

use crate::automata::file;
use crate::checked::{read, CheckedRule};
use crate::differences::{compare, Comparison};
use crate::lines::{bytes, hex};
use crate::reductions::reduce;
use crate::rule::{members, Automaton};

/// The texts of the result: those that both accept, those that either accepts, the interleavings of
/// one from each.
#[derive(Clone, Copy, Debug, PartialEq)]
pub enum Way {
    Both,
    Either,
    Interleaving,
}

fn mask(states: impl Iterator<Item = usize>) -> u32 {
    states.fold(0, |mask, q| mask | 1 << q)
}

/// The automaton of pairs: (q1, q2) is state q1 × n2 + q2.
fn pairs(way: Way, a: &Automaton, b: &Automaton) -> Automaton {
    let pair = |q1: usize, q2: usize| q1 * b.n + q2;
    let all = |ones: u32, twos: u32| -> u32 {
        mask(members(ones).flat_map(|q1| members(twos).map(move |q2| pair(q1, q2))))
    };
    let moved = |q1: usize, q2: usize, s: usize| -> u32 {
        let (t1, t2) = (a.targets[q1][s], b.targets[q2][s]);
        match way {
            Way::Interleaving => all(t1, 1 << q2) | all(1 << q1, t2),
            _ => all(t1, t2),
        }
    };
    let mut targets = Vec::new();
    for q1 in 0..a.n {
        for q2 in 0..b.n {
            targets.push((0..a.k).map(|s| moved(q1, q2, s)).collect());
        }
    }
    let (initial, finals) = (all(a.initial, b.initial), all(a.finals, b.finals));
    Automaton { n: a.n * b.n, k: a.k, initial, finals, targets }
}

/// The states of the second follow those of the first.
fn beside(a: &Automaton, b: &Automaton) -> Automaton {
    let behind = |set: u32| mask(members(set).map(|q| a.n + q));
    let seconds = b.targets.iter().map(|row| row.iter().map(|&set| behind(set)).collect());
    let targets = a.targets.iter().cloned().chain(seconds).collect();
    let (initial, finals) = (a.initial | behind(b.initial), a.finals | behind(b.finals));
    Automaton { n: a.n + b.n, k: a.k, initial, finals, targets }
}

/// The two rules made one; or the number of the first condition that holds: the first rule's (3, 4,
/// 6, 8), then the second's, then 36 and 37.
pub fn merge(way: Way, one: &CheckedRule, two: &CheckedRule) -> Result<CheckedRule, u32> {
    let (a, b) = (one.automaton()?, two.automaton()?);
    if a.k != b.k { return Err(36); }
    let n = if way == Way::Either { a.n + b.n } else { a.n * b.n };
    if n > 32 { return Err(37); }
    let merged = if way == Way::Either { beside(&a, &b) } else { pairs(way, &a, &b) };
    Ok(CheckedRule::of(&merged))
}

/// The first file is read, then the second, then they are merged.
fn merged_file(way: Way, one: &[u8], two: &[u8]) -> Result<Vec<u8>, u32> {
    let (one, two) = (read(one)?, read(two)?);
    Ok(file(&merge(way, &one, &two)?.automaton()?))
}

/// The first file is read, then the second, then they are compared.
fn compared_files(one: &[u8], two: &[u8]) -> Result<String, u32> {
    let (one, two) = (read(one)?, read(two)?);
    Ok(match compare(&one, &two)? {
        Comparison::FirstAlone(text) => format!("apart first {}", hex(&text)),
        Comparison::SecondAlone(text) => format!("apart second {}", hex(&text)),
        Comparison::Same => "same".to_string(),
    })
}

/// A file is read, and then reduced.
fn reduced_file(one: &[u8]) -> Result<Vec<u8>, u32> {
    Ok(file(&reduce(&read(one)?)?.rule.automaton()?))
}

/// What a line is answered, or refused with; or none if it is malformed.
fn said(line: &[u8]) -> Option<Result<String, u32>> {
    let fields: Vec<&[u8]> = line.split(|&c| c == b' ').collect();
    let merged = |way: Way, one: &[u8], two: &[u8]| Some(merged_file(way, &bytes(one)?, &bytes(two)?).map(|made| hex(&made)));
    match fields.as_slice() {
        [b"both", one, two] => merged(Way::Both, one, two),
        [b"either", one, two] => merged(Way::Either, one, two),
        [b"interleaving", one, two] => merged(Way::Interleaving, one, two),
        [b"compare", one, two] => Some(compared_files(&bytes(one)?, &bytes(two)?)),
        [b"reduce", one] => Some(reduced_file(&bytes(one)?).map(|made| hex(&made))),
        _ => None,
    }
}

/// The answer to a line.
pub fn answer(line: &[u8]) -> String {
    match said(line) {
        None => "malformed".to_string(),
        Some(Ok(answer)) => answer,
        Some(Err(number)) => format!("refused {number}"),
    }
}
