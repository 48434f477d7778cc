//! which states have a delegate, what is run, and the join; checked by other ways to the same
//! result, and against the method before R-7.

use reference::automata::{automaton, blank, file};
use reference::judge::Answer::{self, *};
use reference::judge::{Call, Judge, Work};
use reference::random::Random;
use reference::rule::{members, Automaton, Rule};
use std::collections::BTreeSet;

/// Random rules with few sets.
fn rules(seed: u64, count: usize) -> impl Iterator<Item = (Random, Rule)> {
    let some = (0..).filter_map(move |index| {
        let mut r = Random::new(seed, index);
        let rule = Rule::load(&file(&automaton(&mut r))).ok()?;
        (rule.sets.len() < 300).then_some((r, rule))
    });
    some.take(count)
}

/// Whether some text tells two sets apart, by search through the pairs of sets they lead to.
fn told_apart(a: &Automaton, p: u32, q: u32) -> bool {
    let mut seen = BTreeSet::from([(p, q)]);
    let mut open: Vec<(u32, u32)> = seen.iter().copied().collect();
    while let Some((x, y)) = open.pop() {
        if (x & a.finals != 0) != (y & a.finals != 0) {
            return true;
        }
        for s in 0..a.k as u8 {
            let next = (a.successor(x, s), a.successor(y, s));
            if seen.insert(next) {
                open.push(next);
            }
        }
    }
    false
}

/// The states from which a final state can be reached, found backwards from the final ones.
fn leading_to_a_final_state(a: &Automaton) -> u32 {
    let mut found = a.finals;
    loop {
        let leads = |q: &usize| a.targets[*q].iter().any(|targets| targets & found != 0);
        let more = (0..a.n).filter(leads).fold(found, |set, q| set | 1 << q);
        if more == found {
            return found;
        }
        found = more;
    }
}

/// A state is live exactly when the walk back from the final states comes to it, and when a text
/// tells it from the empty set.
#[test]
fn live_states_agree_with_a_walk_back_and_with_a_telling_text() {
    for (_, rule) in rules(2, 600) {
        let a = &rule.automaton;
        let found = leading_to_a_final_state(a);
        for q in 0..a.n {
            assert_eq!(a.live(q), found >> q & 1 == 1);
            assert_eq!(a.live(q), told_apart(a, 1 << q, 0));
        }
    }
}

#[test]
fn delegates_agree_with_a_search_for_a_telling_text() {
    for (_, rule) in rules(3, 150) {
        let a = &rule.automaton;
        for q in 0..a.n {
            let lowest = (0..=q).find(|&p| !told_apart(a, 1 << p, 1 << q));
            assert_eq!(rule.delegates[q], if told_apart(a, 1 << q, 0) { lowest } else { None });
        }
    }
}

/// The join as the paper has it: C becomes the union of the end sets of the delegates of C's
/// members, a start that was not run having the empty end set; a member without delegate is passed
/// over.
fn join(rule: &Rule, chunks: &[Vec<u8>]) -> bool {
    let mut c = rule.automaton.initial;
    for (place, chunk) in chunks.iter().enumerate() {
        let run = rule.starts_at(place);
        let end = |d: usize| if run.contains(&d) { rule.run(d, chunk).0 } else { 0 };
        let mut union = 0;
        for q in members(c) {
            let Some(d) = rule.delegates[q] else { continue };
            union |= end(d);
        }
        c = union;
    }
    c & rule.automaton.finals != 0
}

/// The method before R-7: every state has a delegate, the lowest state alike to it.
struct Former<'a> {
    automaton: &'a Automaton,
    delegates: Vec<usize>,
}

impl Former<'_> {
    fn of(rule: &Rule) -> Former<'_> {
        Former { automaton: &rule.automaton, delegates: rule.automaton.lowest_alike(&rule.sets) }
    }

    fn starts(&self) -> u32 {
        self.delegates.iter().fold(0, |set, &d| set | 1 << d)
    }

    fn starts_at(&self, place: usize) -> u32 {
        match place {
            0 => members(self.automaton.initial).fold(0, |set, q| set | 1 << self.delegates[q]),
            _ => self.starts(),
        }
    }

    fn count(&self, rule: &Rule, chunks: &[Vec<u8>]) -> u64 {
        let at = |(place, chunk): (usize, &Vec<u8>)| -> u64 {
            members(self.starts_at(place)).map(|d| rule.run(d, chunk).1).sum()
        };
        chunks.iter().enumerate().map(at).sum()
    }

    fn join(&self, chunks: &[Vec<u8>]) -> bool {
        let mut c = self.automaton.initial;
        for (place, chunk) in chunks.iter().enumerate() {
            let run = self.starts_at(place);
            let end = |d: usize| if run >> d & 1 == 1 { self.automaton.after(1 << d, chunk) } else { 0 };
            c = members(c).fold(0, |union, q| union | end(self.delegates[q]));
        }
        c & self.automaton.finals != 0
    }
}

/// A text, of symbols that mostly lead somewhere, cut into chunks anywhere.
fn cut(r: &mut Random, a: &Automaton) -> Vec<Vec<u8>> {
    let mut set = a.initial;
    (0..r.range(1, 5))
        .map(|_| {
            let mut chunk = Vec::new();
            for _ in 0..r.below(6) {
                let mut s = r.below(a.k) as u8;
                if a.successor(set, s) == 0 {
                    s = r.below(a.k) as u8;
                }
                set = a.successor(set, s);
                chunk.push(s);
            }
            chunk
        })
        .collect()
}

/// On every rule and cut the join, the former join and acceptance of the joined text say the same;
/// M is one less than before where there is a dead state, and the count is never more.
#[test]
fn the_same_yes_or_no_as_before() {
    let (mut yes, mut less) = (0, 0);
    for (mut r, rule) in rules(4, 2000) {
        let (a, former) = (&rule.automaton, Former::of(&rule));
        let dead = (0..a.n).any(|q| !a.live(q));
        assert_eq!(rule.starts().len() + dead as usize, former.starts().count_ones() as usize);
        for _ in 0..10 {
            let chunks = cut(&mut r, a);
            let accepted = a.accepts_from(a.initial, &chunks.concat());
            assert_eq!((join(&rule, &chunks), former.join(&chunks)), (accepted, accepted));
            let count: u64 = chunks.iter().enumerate().map(|(place, chunk)| rule.count(place, chunk)).sum();
            assert!(count <= former.count(&rule, &chunks));
            assert!(count <= (rule.starts().len() * chunks.concat().len()) as u64);
            (yes, less) = (yes + accepted as u32, less + (count < former.count(&rule, &chunks)) as u32);
        }
    }
    assert!(yes > 2000 && less > 2000, "{yes} accepted, {less} with a lower count");
}

/// The answers to a load, an opening of as many places as there are chunks, their deliveries in
/// order and the verdict.
fn judged(a: &Automaton, chunks: &[&[u8]]) -> Vec<Answer> {
    let mut judge = Judge::default();
    let mut calls = vec![Call::Load(file(a)), Call::Open(chunks.len() as u64)];
    calls.extend(chunks.iter().enumerate().map(|(place, chunk)| Call::Deliver(place as u64, 0, chunk.to_vec())));
    calls.push(Call::Verdict);
    calls.iter().map(|call| judge.call(call)).collect()
}

/// The count, the bytes of the text, the quotient and the remainder.
fn work(count: u64, bytes: u64, quotient: u64, remainder: u64) -> Work {
    Work { count, bytes, quotient, remainder }
}

/// By 0 from 0 to 1, which is final and has no arcs; by 1 from 0 to 2; 2 and 3 lead only to each
/// other.
fn astray() -> Automaton {
    let mut a = blank(4, 2);
    (a.initial, a.finals) = (1, 2);
    a.targets = vec![vec![2, 4], vec![0, 0], vec![8, 4], vec![4, 0]];
    a
}

#[test]
fn a_dead_state_has_no_delegate() {
    let rule = Rule::load(&file(&astray())).unwrap();
    assert_eq!(rule.delegates, [Some(0), Some(1), None, None]);
    assert_eq!((rule.starts(), rule.starts_at(0), rule.starts_at(1)), (vec![0, 1], vec![0], vec![0, 1]));
    let printed = "sets 4 starts 2\n0 00000001 1 2\n1 00000002 - -\n2 00000004 3 2\n3 00000008 2 -\ndelegates 0 1 - -\n";
    assert_eq!(rule.print(), printed);
    // the run from 0 goes on in dead states, which the next place does not start from
    assert_eq!(
        judged(&astray(), &[&[1, 1], &[1, 1]]),
        [Installed(4, 2), Accepted, Delivered(2), Delivered(2), No(work(4, 4, 1, 0))]
    );
    assert_eq!(
        judged(&astray(), &[&[], &[0, 1]]),
        [Installed(4, 2), Accepted, Delivered(0), Delivered(2), No(work(1, 2, 0, 1))]
    );
    assert_eq!(judged(&astray(), &[&[0]])[3], Yes(work(1, 1, 1, 0)));
}

/// At place 0 nothing is run from an initial state that is dead, at the others all starts are.
#[test]
fn a_dead_initial_state() {
    let mut a = astray();
    a.initial = 4;
    assert_eq!(
        judged(&a, &[&[0, 1], &[1, 1]]),
        [Installed(4, 2), Accepted, Delivered(0), Delivered(2), No(work(2, 4, 0, 2))]
    );
    // beside a live one it is passed over
    a.initial = 5;
    assert_eq!(judged(&a, &[&[], &[0]])[4], Yes(work(1, 1, 1, 0)));
    assert_eq!(judged(&a, &[&[1]])[3], No(work(1, 1, 1, 0)));
}

/// No state is live, nothing is run, nothing is counted.
#[test]
fn no_final_state() {
    let mut a = astray();
    a.finals = 0;
    assert_eq!(
        judged(&a, &[&[0, 1], &[1, 1]]),
        [Installed(4, 0), Accepted, Delivered(0), Delivered(0), No(work(0, 4, 0, 0))]
    );
    let rule = Rule::load(&file(&a)).unwrap();
    assert_eq!(rule.print().lines().last(), Some("delegates - - - -"));
}

/// A final state without arcs is live, and a start; two of them are alike.
#[test]
fn final_states_without_arcs() {
    let mut a = blank(3, 1);
    (a.initial, a.finals) = (7, 6);
    assert_eq!(Rule::load(&file(&a)).unwrap().delegates, [None, Some(1), Some(1)]);
    assert_eq!(
        judged(&a, &[&[], &[]]),
        [Installed(3, 1), Accepted, Delivered(0), Delivered(0), Yes(work(0, 0, 0, 0))]
    );
    assert_eq!(judged(&a, &[&[0, 0]])[2..], [Delivered(1), No(work(0, 2, 0, 0))]);
}
