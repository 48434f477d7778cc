//! a sample trace for a rule.

use reference::automata::{blank, file};
use reference::checked::CheckedRule;
use reference::random::Random;
use reference::rule::Automaton;
use reference::samples::Wish::{self, Accepted, Rejected};
use reference::samples::{printed, sample};

/// Rule A of the paper: it accepts the texts that end in 0 1.
fn a() -> Automaton {
    let mut a = blank(3, 2);
    (a.initial, a.finals) = (1, 4);
    a.targets = vec![vec![3, 1], vec![0, 4], vec![0, 0]];
    a
}

/// The symbol 1 is the n-th from the end: texts lead to 2 ^ n sets from {0}; symbols from 2 on have no arc.
fn from_the_end(n: usize, k: usize) -> Automaton {
    let mut a = blank(n + 1, k);
    (a.initial, a.finals) = (1, 1 << n);
    (a.targets[0][0], a.targets[0][1]) = (1, 3);
    for q in 1..n {
        (a.targets[q][0], a.targets[q][1]) = (2 << q, 2 << q);
    }
    a
}

fn of(wish: Wish, a: &Automaton) -> Result<Option<Vec<u8>>, u32> {
    sample(wish, &CheckedRule::of(a))
}

/// Texts are tried in their order. A sample is shorter than the number of sets of states.
fn first(wish: Wish, a: &Automaton) -> Option<Vec<u8>> {
    let mut texts: Vec<Vec<u8>> = vec![Vec::new()];
    for _ in 0..1 << a.n {
        let wished = |text: &&Vec<u8>| a.accepts_from(a.initial, text) == (wish == Accepted);
        if let Some(text) = texts.iter().find(wished) {
            return Some(text.clone());
        }
        let longer = |text: &Vec<u8>| (0..a.k as u8).map(|s| [text.as_slice(), &[s]].concat()).collect::<Vec<_>>();
        texts = texts.iter().flat_map(longer).collect();
    }
    None
}

#[test]
fn worked_by_hand() {
    assert_eq!((of(Accepted, &a()), of(Rejected, &a())), (Ok(Some(vec![0, 1])), Ok(Some(vec![]))));
    let mut every = blank(1, 1);
    (every.initial, every.finals, every.targets[0][0]) = (1, 1, 1);
    assert_eq!((of(Accepted, &every), of(Rejected, &every)), (Ok(Some(vec![])), Ok(None)));
    every.initial = 0;
    assert_eq!((of(Accepted, &every), of(Rejected, &every)), (Ok(None), Ok(Some(vec![]))));
}

#[test]
fn the_first_of_all_texts() {
    let mut r = Random::new(9, 0);
    for _ in 0..2000 {
        let (n, k) = (r.range(1, 3), r.range(1, 3));
        let set = |r: &mut Random| r.below(1 << n) as u32;
        let mut a = blank(n, k);
        (a.initial, a.finals) = (set(&mut r), set(&mut r));
        for q in 0..n {
            for s in 0..k {
                a.targets[q][s] = set(&mut r) & (set(&mut r) | set(&mut r));
            }
        }
        for wish in [Accepted, Rejected] {
            assert_eq!(of(wish, &a), Ok(first(wish, &a)), "{wish:?} {a:?}");
        }
    }
}

#[test]
fn refusals_in_order() {
    for wish in [Accepted, Rejected] {
        assert!(of(wish, &from_the_end(9, 2)).is_ok());
        assert_eq!(of(wish, &from_the_end(9, 3)), Err(35));
        let mut rule = CheckedRule::of(&from_the_end(10, 2));
        assert_eq!(sample(wish, &rule), Err(35));
        rule.targets[0][2] = 1;
        assert_eq!(sample(wish, &rule), Err(8));
        rule.finals = 1 << 11;
        assert_eq!(sample(wish, &rule), Err(6));
        rule.k = 17;
        assert_eq!(sample(wish, &rule), Err(4));
        rule.n = 0;
        assert_eq!(sample(wish, &rule), Err(3));
    }
}

#[test]
fn what_is_printed() {
    assert_eq!(printed(&file(&a())), "accepts 0001\nrejects -\n");
    assert_eq!(printed(&file(&blank(1, 1))), "accepts none\nrejects -\n");
    assert_eq!(printed(&[]), "refused 1\n");
    assert_eq!(printed(&file(&from_the_end(10, 2))), "refused 35\n");
}
