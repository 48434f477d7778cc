//! A rule reduced: the same texts, and no state that is unreachable, dead or alike to another.

use crate::automata::{automaton, blank, reordered, with_a_change, with_a_state_more};
use crate::checked::CheckedRule;
use crate::follow::changed;
use crate::lines::hex;
use crate::random::Random;
use crate::rule::{members, Automaton, Rule};

/// The reduced rule, and whether it can be installed.
#[derive(Clone, Debug, PartialEq)]
pub struct Reduced {
    pub rule: CheckedRule,
    pub installs: bool,
}

/// The states that can be reached from an initial state.
fn reachable(a: &Automaton) -> u32 {
    let mut reached = a.initial;
    loop {
        let further = (0..a.k as u8).fold(reached, |set, s| set | a.successor(reached, s));
        if further == reached { return reached; }
        reached = further;
    }
}

/// The automaton with every state that arcs lead to, and every initial one, replaced by the state that stands for
/// it, or left out where none does.
fn represented(a: &Automaton, stands: &[Option<usize>]) -> Automaton {
    let all = |set: u32| members(set).filter_map(|q| stands[q]).fold(0, |set, q| set | 1 << q);
    let targets = a.targets.iter().map(|row| row.iter().map(|&set| all(set)).collect()).collect();
    Automaton { initial: all(a.initial), targets, ..a.clone() }
}

/// The automaton of these states alone, which keep their order and are numbered from 0; without any state, one
/// that has nothing.
fn of_these(a: &Automaton, kept: u32) -> Automaton {
    let old: Vec<usize> = members(kept).collect();
    if old.is_empty() { return blank(1, a.k); }
    let new = |set: u32| (0..old.len()).fold(0, |mask, p| mask | (set >> old[p] & 1) << p);
    let targets = old.iter().map(|&q| a.targets[q].iter().map(|&set| new(set)).collect()).collect();
    Automaton { n: old.len(), k: a.k, initial: new(a.initial), finals: new(a.finals), targets }
}

/// Dead states go, each other one is represented by the lowest reachable state alike to it, and of these stay those
/// that can then be reached; or the number of the first condition that holds: 3, 4, 6, 8 or 9.
pub fn reduce(value: &CheckedRule) -> Result<Reduced, u32> {
    let Rule { automaton: a, sets, .. } = Rule::install(value)?;
    let (alike, reached) = (a.lowest_alike(&sets), reachable(&a));
    let lowest = |q: usize| members(reached).find(|&p| alike[p] == alike[q]);
    let stands: Vec<Option<usize>> = (0..a.n).map(|q| if a.live(q) { lowest(q) } else { None }).collect();
    let b = represented(&a, &stands);
    let rule = CheckedRule::of(&of_these(&b, reachable(&b)));
    let installs = Rule::install(&rule).is_ok();
    Ok(Reduced { rule, installs })
}

/// A rule of few sets whose reduction has many. State 0 accepts all texts; by 1 it begins a row of so many states
/// too, so that texts lead to sets of many kinds from it. Behind the row stands a ring of states, of which the first
/// leads by 1 to the last state of all; that accepts all texts too, and is represented by state 0.
pub fn grows(row: usize, ring: usize) -> Automaton {
    let (first, last) = (1 + row, 1 + row + ring);
    let mut a = blank(last + 1, 2);
    (a.initial, a.finals) = (1 | 1 << first, 1 | 1 << row | 1 << last);
    (a.targets[0], a.targets[last]) = (vec![1, 3], vec![1 << last, 1 << last]);
    for q in 1..row { a.targets[q] = vec![2 << q, 2 << q]; }
    for i in 0..ring {
        let next = 1 << (first + (i + 1) % ring);
        a.targets[first + i] = vec![next, if i == 0 { next | 1 << last } else { next }];
    }
    a
}

/// An automaton that has something to take out, mostly.
fn any_automaton(r: &mut Random) -> Automaton {
    if r.one_in(30) {
        let (row, ring) = (r.range(4, 8), r.range(2, 12));
        return grows(row, ring);
    }
    let mut a = automaton(r);
    for _ in 0..r.below(5) {
        if a.n < 32 { a = with_a_state_more(r, &a); }
    }
    if r.one_in(4) { a = with_a_change(r, &a); }
    reordered(r, &a)
}

/// Rules under a seed, a line each: the 2,058 bytes of the value; then those of the reduced one, and whether it
/// installs, or the number of a refusal.
pub fn rules(seed: u64, count: u64) -> String {
    let line = |stream: u64| {
        let mut r = Random::new(seed, stream);
        let a = any_automaton(&mut r);
        let rule = changed(&mut r, CheckedRule::of(&a));
        let said = match reduce(&rule) {
            Ok(Reduced { rule, installs }) => format!("{} {}", hex(&rule.bytes()), if installs { "installs" } else { "too large" }),
            Err(number) => format!("refused {number}"),
        };
        format!("{} {said}\n", hex(&rule.bytes()))
    };
    (0..count).map(line).collect()
}
