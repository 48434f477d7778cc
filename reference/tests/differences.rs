//! Two rules compared: the first text that exactly one of them accepts.

use reference::automata::{automaton, blank, reordered, with_a_change, with_a_state_more, with_symbols};
use reference::checked::CheckedRule;
use reference::differences::Comparison::{self, FirstAlone, Same, SecondAlone};
use reference::differences::{compare, pairs};
use reference::random::Random;
use reference::rule::Automaton;
use std::collections::BTreeSet;

/// Rule A of the paper: it accepts the texts that end in 0 1.
fn a() -> Automaton {
    let mut a = blank(3, 2);
    (a.initial, a.finals) = (1, 4);
    a.targets = vec![vec![3, 1], vec![0, 4], vec![0, 0]];
    a
}

/// The symbol 1 is the n-th from the end: texts lead to 2 ^ n sets from {0}.
fn from_the_end(n: usize) -> Automaton {
    let mut a = blank(n + 1, 2);
    (a.initial, a.finals) = (1, 1 << n);
    (a.targets[0][0], a.targets[0][1]) = (1, 3);
    for q in 1..n {
        (a.targets[q][0], a.targets[q][1]) = (2 << q, 2 << q);
    }
    a
}

fn of(a: &Automaton, b: &Automaton) -> Result<Comparison, u32> {
    compare(&CheckedRule::of(a), &CheckedRule::of(b))
}

/// The first text that exactly one accepts, and 45, as the words have them: all texts in their order, up to so many
/// symbols, each with the pair of sets that it leads to; the pairs are counted. None where that decides nothing.
fn by_the_words(a: &Automaton, b: &Automaton, most: usize) -> Option<Result<Comparison, u32>> {
    let mut texts = vec![(Vec::new(), a.initial, b.initial)];
    let mut reached = BTreeSet::new();
    for _ in 0..=most {
        for (text, first, second) in &texts {
            reached.insert((*first, *second));
            if reached.len() == 513 { return Some(Err(45)); }
            match (first & a.finals != 0, second & b.finals != 0) {
                (true, false) => return Some(Ok(FirstAlone(text.clone()))),
                (false, true) => return Some(Ok(SecondAlone(text.clone()))),
                _ => (),
            }
        }
        let mut longer = Vec::new();
        for (text, first, second) in texts {
            for s in 0..a.k as u8 {
                longer.push(([text.as_slice(), &[s]].concat(), a.successor(first, s), b.successor(second, s)));
            }
        }
        texts = longer;
    }
    None
}

fn small(r: &mut Random, n: usize, k: usize) -> Automaton {
    let set = |r: &mut Random| r.below(1 << n) as u32;
    let mut a = blank(n, k);
    (a.initial, a.finals) = (set(r), set(r));
    for q in 0..n {
        for s in 0..k {
            a.targets[q][s] = set(r) & (set(r) | set(r));
        }
    }
    a
}

#[test]
fn worked_by_hand() {
    let mut every = blank(1, 2);
    (every.initial, every.finals, every.targets) = (1, 1, vec![vec![1, 1]]);
    let mut longer = a();
    longer.targets[2][1] = 4;
    assert_eq!((of(&a(), &a()), of(&every, &a())), (Ok(Same), Ok(FirstAlone(vec![]))));
    assert_eq!(of(&a(), &longer), Ok(SecondAlone(vec![0, 1, 1])));
    assert_eq!(of(&longer, &a()), Ok(FirstAlone(vec![0, 1, 1])));
    assert_eq!(of(&a(), &blank(1, 2)), Ok(FirstAlone(vec![0, 1])));
    assert_eq!(of(&blank(7, 2), &blank(1, 2)), Ok(Same));
}

/// Two deterministic automata, here of the sets of up to three states each, are told apart by a text shorter than
/// their numbers of states together, if at all.
#[test]
fn the_first_of_all_texts() {
    let (mut r, mut same) = (Random::new(37, 0), 0);
    for round in 0..1500 {
        let (n, k) = if round % 10 == 0 { (3, 2) } else { (r.range(1, 2), r.range(1, 3)) };
        let (a, b) = (small(&mut r, n, k), small(&mut r, n, k));
        let due = by_the_words(&a, &b, 2 << n).unwrap_or(Ok(Same));
        same += (due == Ok(Same)) as usize;
        assert_eq!(of(&a, &b), due, "{a:?} {b:?}");
    }
    assert!(same > 200 && same < 1300, "{same}");
}

/// Rules of many sets, by the words as far as these can be tried.
#[test]
fn many_pairs() {
    let mut seen = [0; 4];
    for stream in 0..300 {
        let mut r = Random::new(37, stream);
        let n = r.range(7, 13);
        let a = if r.one_in(2) { from_the_end(n) } else { with_symbols(2, automaton(&mut r)) };
        let b = if r.one_in(3) { with_symbols(2, automaton(&mut r)) } else { with_a_change(&mut r, &a) };
        let Some(due) = by_the_words(&a, &b, 12) else { continue };
        seen[match due {
            Ok(FirstAlone(_)) => 0,
            Ok(SecondAlone(_)) => 1,
            Ok(Same) => 2,
            Err(_) => 3,
        }] += 1;
        assert_eq!(of(&a, &b), due, "{a:?} {b:?}");
    }
    assert!(seen[0] > 30 && seen[1] > 30 && seen[3] > 30, "{seen:?}");
    assert_eq!(of(&from_the_end(10), &from_the_end(20)), Err(45));
    assert_eq!(of(&from_the_end(9), &from_the_end(20)), Ok(FirstAlone(vec![1, 0, 0, 0, 0, 0, 0, 0, 0])));
    assert_eq!(of(&from_the_end(9), &from_the_end(9)), Ok(Same));
}

/// What the random pairs are made by: a state more, and another order, change nothing.
#[test]
fn the_same_in_other_words() {
    let (mut r, mut same) = (Random::new(37, 1), 0);
    for _ in 0..500 {
        let a = automaton(&mut r);
        if a.n == 32 { continue }
        let b = with_a_state_more(&mut r, &a);
        let answer = of(&a, &reordered(&mut r, &b));
        assert!(matches!(answer, Ok(Same) | Err(45)), "{answer:?} {a:?} {b:?}");
        same += (answer == Ok(Same)) as usize;
    }
    assert!(same > 300, "{same}");
}

#[test]
fn refusals_in_order() {
    let many = CheckedRule::of(&from_the_end(10));
    let plain = |n: u8, k: u8| CheckedRule { n, k, ..CheckedRule::of(&blank(1, 1)) };
    let stray = CheckedRule { finals: 2, ..plain(1, 2) };
    let mut kept = plain(1, 2);
    kept.targets[0][2] = 1;
    for (one, two, number) in [
        (&plain(0, 17), &stray, 3),
        (&plain(1, 17), &plain(33, 0), 4),
        (&stray, &plain(33, 0), 6),
        (&kept, &stray, 8),
        (&many, &plain(33, 0), 3),
        (&many, &plain(1, 0), 4),
        (&plain(1, 1), &stray, 6),
        (&plain(1, 1), &kept, 8),
        (&many, &plain(1, 1), 36),
        (&many, &many, 45),
    ] {
        assert_eq!(compare(one, two), Err(number));
    }
}

#[test]
fn the_lines_of_pairs() {
    let lines = pairs(1, 200);
    let answers: Vec<&str> = lines.lines().map(|line| line.splitn(3, ' ').nth(2).unwrap()).collect();
    assert_eq!(answers.len(), 200);
    for kind in ["first ", "second ", "same", "refused 36", "refused 45", "refused 6"] {
        assert!(answers.iter().any(|answer| answer.starts_with(kind)), "{kind}");
    }
}
