//! Two rules reduced, made one of the pairs that are reachable and live, and reduced again.

use crate::automata::{automaton, blank, from_the_end, reordered, with_a_change, with_a_state_more, with_symbols};
use crate::checked::CheckedRule;
use crate::lines::hex;
use crate::merges::Way;
use crate::random::Random;
use crate::reductions::{grows, reduce};
use crate::rule::{members, Automaton};
use std::collections::BTreeSet;

/// The rule that two come to, and which of the three reductions, of the first rule, of the second
/// and of the result, were left out since they would have been refused with 9.
#[derive(Clone, Debug, PartialEq)]
pub struct Merged {
    pub rule: CheckedRule,
    pub left_out: [bool; 3],
}

/// A state of the result: a pair of states; for either 0 or 1, for the rule that it is of, and its
/// state there. They are in the order that merging gives them.
type State = (usize, usize);

/// Two automata of which one is to be made.
struct Both<'a> {
    way: Way,
    a: &'a Automaton,
    b: &'a Automaton,
}

impl Both<'_> {
    /// The states whose members are in these two sets, or that are in one of them.
    fn all(&self, ones: u32, twos: u32) -> Vec<State> {
        match self.way {
            Way::Either => members(ones).map(|q| (0, q)).chain(members(twos).map(|q| (1, q))).collect(),
            _ => members(ones).flat_map(|q| members(twos).map(move |p| (q, p))).collect(),
        }
    }

    fn successors(&self, (x, y): State, s: usize) -> Vec<State> {
        match self.way {
            Way::Both => self.all(self.a.targets[x][s], self.b.targets[y][s]),
            Way::Either if x == 0 => self.all(self.a.targets[y][s], 0),
            Way::Either => self.all(0, self.b.targets[y][s]),
            Way::Interleaving => {
                let first_moves = self.all(self.a.targets[x][s], 1 << y);
                [first_moves, self.all(1 << x, self.b.targets[y][s])].concat()
            }
        }
    }

    fn reachable(&self) -> BTreeSet<State> {
        let mut open = self.all(self.a.initial, self.b.initial);
        let mut reached: BTreeSet<State> = open.iter().copied().collect();
        while let Some(state) = open.pop() {
            let further = (0..self.a.k).flat_map(|s| self.successors(state, s));
            open.extend(further.filter(|&next| reached.insert(next)));
        }
        reached
    }

    /// Those of these states from which a final state can be reached.
    fn live(&self, reached: &BTreeSet<State>) -> BTreeSet<State> {
        let mut live: BTreeSet<State> = self.all(self.a.finals, self.b.finals).into_iter().collect();
        loop {
            let leads = |&state: &State| (0..self.a.k).any(|s| self.successors(state, s).iter().any(|next| live.contains(next)));
            let more: Vec<State> = reached.iter().copied().filter(|state| !live.contains(state)).filter(leads).collect();
            if more.is_empty() { return reached.intersection(&live).copied().collect(); }
            live.extend(more);
        }
    }

    /// The automaton of these states alone, numbered from 0 in their order; without any, one that
    /// has nothing.
    fn of_these(&self, kept: &BTreeSet<State>) -> Automaton {
        let (a, b) = (self.a, self.b);
        let number = |state: State| kept.iter().position(|&other| other == state);
        let mask = |states: Vec<State>| states.into_iter().filter_map(number).fold(0, |mask, p| mask | 1 << p);
        if kept.is_empty() { return blank(1, a.k); }
        let row = |&state: &State| (0..a.k).map(|s| mask(self.successors(state, s))).collect();
        let (initial, finals) = (mask(self.all(a.initial, b.initial)), mask(self.all(a.finals, b.finals)));
        Automaton { n: kept.len(), k: a.k, initial, finals, targets: kept.iter().map(row).collect() }
    }
}

/// The rule reduced, or as it is where it has too many sets; and whether it is that.
fn reduced(rule: &CheckedRule) -> (CheckedRule, bool) {
    match reduce(rule) {
        Ok(reduced) => (reduced.rule, false),
        Err(number) => {
            assert_eq!(number, 9);
            (rule.clone(), true)
        }
    }
}

/// The two rules reduced, made one, reduced; or the number of the first condition that holds: the
/// first rule's (3, 4, 6, 8), then the second's, then 36, and 37 where more than 32 states are
/// reachable and live.
pub fn merge_reduced(way: Way, one: &CheckedRule, two: &CheckedRule) -> Result<Merged, u32> {
    if one.automaton()?.k != two.automaton()?.k { return Err(36); }
    let ((one, first), (two, second)) = (reduced(one), reduced(two));
    let (a, b) = (one.automaton()?, two.automaton()?);
    let both = Both { way, a: &a, b: &b };
    let kept = both.live(&both.reachable());
    if kept.len() > 32 { return Err(37); }
    let (rule, result) = reduced(&CheckedRule::of(&both.of_these(&kept)));
    Ok(Merged { rule, left_out: [first, second, result] })
}

/// An automaton with so many states at most.
fn small(r: &mut Random, most: usize) -> Automaton {
    loop {
        let a = automaton(r);
        if a.n <= most { return a; }
    }
}

/// By one symbol round so many states.
fn cycle(n: usize) -> Automaton {
    let targets = (0..n).map(|q| vec![1 << (q + 1) % n]).collect();
    Automaton { n, k: 1, initial: 1, finals: 1, targets }
}

/// Two automata, with the same symbols: the one in other words, so that of many pairs few may be
/// reachable; without anything in common; with too many sets, or a result that has; cycles that are
/// not in step. For either they are larger, since its states are fewer.
fn any_automata(r: &mut Random, way: Way) -> (Automaton, Automaton) {
    let most = r.pick(match way {
        Way::Both => &[3, 4, 6, 9, 32],
        Way::Either => &[4, 9, 32, 32, 32],
        Way::Interleaving => &[2, 3, 4, 6, 9],
    });
    let (mut a, mut b) = match r.below(8) {
        0 | 1 | 2 => {
            let a = small(r, most);
            (a.clone(), if r.one_in(2) { with_a_change(r, &a) } else { a })
        }
        3 | 4 => (small(r, most), small(r, most)),
        5 => {
            let j = r.range(9, 12);
            (from_the_end(j, 2), small(r, 2))
        }
        6 => {
            let (row, ring) = (r.range(4, 8), r.range(2, 4));
            (grows(row, ring), small(r, 2))
        }
        _ => {
            let n = if way == Way::Either { r.range(10, 20) } else { r.range(2, 9) };
            (cycle(n), cycle(n + r.range(0, 4)))
        }
    };
    b = with_symbols(a.k, b);
    for _ in 0..r.pick(&[0, 0, 1, 3]) {
        if a.n < 32 { a = with_a_state_more(r, &a); }
        if b.n < 32 { b = with_a_state_more(r, &b); }
    }
    if r.one_in(2) { (a, b) = (b, a); }
    (reordered(r, &a), reordered(r, &b))
}

/// A rule with a wrong number, unless it has all states: 3, 4, 6 or 8 is due.
fn spoiled(r: &mut Random, mut rule: CheckedRule) -> CheckedRule {
    let beyond = 1 << r.range(rule.n as usize, 32).min(31);
    match r.below(8) {
        0 | 1 => rule.n = r.pick(&[0, 33, 64, 255]),
        2 | 3 => rule.k = r.pick(&[0, 17, 32, 255]),
        4 => rule.initial |= beyond,
        5 => rule.finals |= beyond,
        6 => rule.targets[r.below(rule.n as usize)][r.below(rule.k as usize)] |= beyond,
        _ => rule.targets[31][15] = 1,
    }
    rule
}

/// Pairs of rules under a seed and a way, a line each: the way, the 2,058 bytes of both values, and
/// those of the result, with a word for each reduction that was left out, or the number of a
/// refusal.
pub fn pairs(seed: u64, count: u64) -> String {
    let line = |stream: u64| {
        let mut r = Random::new(seed, stream);
        let (way, word) = [(Way::Both, "both"), (Way::Either, "either"), (Way::Interleaving, "interleaving")][stream as usize % 3];
        let (a, mut b) = any_automata(&mut r, way);
        if r.one_in(12) { b = with_symbols(if b.k == 16 { 15 } else { b.k + 1 }, b); }
        let [mut one, mut two] = [a, b].map(|a| CheckedRule::of(&a));
        match r.below(12) {
            0 | 1 => one = spoiled(&mut r, one),
            2 | 3 => two = spoiled(&mut r, two),
            4 => (one, two) = (spoiled(&mut r, one), spoiled(&mut r, two)),
            _ => (),
        }
        let said = match merge_reduced(way, &one, &two) {
            Ok(Merged { rule, left_out }) => {
                let words = ["first", "second", "result"].iter().zip(left_out).filter(|(_, left)| *left);
                hex(&rule.bytes()) + &words.map(|(word, _)| format!(" {word}")).collect::<String>()
            }
            Err(number) => format!("refused {number}"),
        };
        format!("{word} {} {} {said}\n", hex(&one.bytes()), hex(&two.bytes()))
    };
    (0..count).map(line).collect()
}
