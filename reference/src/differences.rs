//! Two rules compared: the first text that exactly one of them accepts.

use crate::automata::{automaton, blank, exactly, reordered, with_a_change, with_a_state_more, with_symbols};
use crate::checked::CheckedRule;
use crate::follow::changed;
use crate::lines::hex;
use crate::random::Random;
use crate::rule::Automaton;
use std::collections::BTreeSet;

#[derive(Clone, Debug, PartialEq)]
pub enum Comparison {
    /// The first rule accepts the text, and the second does not.
    FirstAlone(Vec<u8>),
    /// The second accepts it, and the first does not.
    SecondAlone(Vec<u8>),
    /// There is no such text.
    Same,
}

/// Shorter texts before longer ones, then by symbols, and of all that lead to the same pair of sets the first
/// alone: another that leads there goes on as the first does, and comes later. The number of the first
/// condition that holds: the first rule's (3, 4, 6, 8), then the second's, 36, and 45 where the text at hand is
/// the 513th of those that lead to different pairs, and no text before it tells the two apart.
pub fn compare(one: &CheckedRule, two: &CheckedRule) -> Result<Comparison, u32> {
    let (a, b) = (one.automaton()?, two.automaton()?);
    if a.k != b.k { return Err(36); }
    let start = (a.initial, b.initial);
    let mut texts = vec![(start, Vec::new())];
    let mut reached = BTreeSet::from([start]);
    let mut at = 0;
    while at < texts.len() {
        let ((first, second), text) = texts[at].clone();
        if at + 1 > 512 { return Err(45); }
        match (first & a.finals != 0, second & b.finals != 0) {
            (true, false) => return Ok(Comparison::FirstAlone(text)),
            (false, true) => return Ok(Comparison::SecondAlone(text)),
            _ => (),
        }
        for s in 0..a.k as u8 {
            let pair = (a.successor(first, s), b.successor(second, s));
            if reached.insert(pair) {
                texts.push((pair, [text.as_slice(), &[s]].concat()));
            }
        }
        at += 1;
    }
    Ok(Comparison::Same)
}

/// An answer in words.
fn said(answer: &Result<Comparison, u32>) -> String {
    match answer {
        Ok(Comparison::FirstAlone(text)) => format!("first {}", hex(text)),
        Ok(Comparison::SecondAlone(text)) => format!("second {}", hex(text)),
        Ok(Comparison::Same) => "same".to_string(),
        Err(number) => format!("refused {number}"),
    }
}

/// Cycles of 7, 8 and 9 states by one symbol, 504 sets, beside so many states in a row: a text of so many symbols
/// leads to a pair of its own, until both are where they were. The two differ late, or not at all.
fn in_step(r: &mut Random) -> (Automaton, Automaton) {
    let (mut a, n) = (blank(24, 1), r.range(7, 12));
    let mut b = blank(n, 1);
    let spared = if r.one_in(2) { r.below(n) } else { 24 };
    let mut first = 0;
    for size in [7, 8, 9] {
        a.initial |= 1 << first;
        for i in 0..size {
            a.targets[first + i][0] = 1 << (first + (i + 1) % size);
            if spared == 24 || i != spared % size { a.finals |= 1 << (first + i); }
        }
        first += size;
    }
    b.initial = 1;
    for q in 0..n {
        b.targets[q][0] = 1 << (q + 1).min(n - 1);
        if q != spared { b.finals |= 1 << q; }
    }
    (a, b)
}

/// Two automata: one and the same in other words, with a change among them or not; or two that have nothing to
/// do with each other.
fn any_automata(r: &mut Random) -> (Automaton, Automaton) {
    if r.one_in(20) { return in_step(r); }
    let sets = r.range(200, 513);
    let a = if r.one_in(20) { exactly(r, sets) } else { automaton(r) };
    if r.one_in(5) {
        let b = automaton(r);
        return (a.clone(), with_symbols(if r.one_in(10) { b.k } else { a.k }, b));
    }
    let mut b = a.clone();
    for _ in 0..r.below(4) {
        if b.n < 32 { b = with_a_state_more(r, &b); }
    }
    if r.one_in(2) { b = with_a_change(r, &b); }
    (a, reordered(r, &b))
}

/// Pairs of rules under a seed, a line each: the 2,058 bytes of both values and the answer.
pub fn pairs(seed: u64, count: u64) -> String {
    let line = |stream: u64| {
        let mut r = Random::new(seed, stream);
        let (a, b) = any_automata(&mut r);
        let (a, b) = if r.one_in(2) { (a, b) } else { (b, a) };
        let [one, two] = [a, b].map(|a| changed(&mut r, CheckedRule::of(&a)));
        format!("{} {} {}\n", hex(&one.bytes()), hex(&two.bytes()), said(&compare(&one, &two)))
    };
    (0..count).map(line).collect()
}
