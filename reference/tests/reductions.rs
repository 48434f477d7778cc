//! A rule reduced: the same texts, and no state that is unreachable, dead or alike to another.

use reference::automata::{automaton, blank, reordered, with_a_state_more};
use reference::checked::CheckedRule;
use reference::differences::{compare, Comparison};
use reference::random::Random;
use reference::reductions::{grows, reduce, rules, Reduced};
use reference::rule::{members, Automaton, Rule};
use std::collections::BTreeSet;

fn of(a: &Automaton) -> Reduced {
    reduce(&CheckedRule::of(a)).unwrap()
}

/// A rule by one symbol, with the targets of each state.
fn by_one(initial: u32, finals: u32, targets: &[u32]) -> Automaton {
    let mut a = blank(targets.len(), 1);
    (a.initial, a.finals) = (initial, finals);
    a.targets = targets.iter().map(|&set| vec![set]).collect();
    a
}

/// All texts that are shorter than so many symbols.
fn texts(k: usize, length: usize) -> Vec<Vec<u8>> {
    let (mut all, mut longest) = (vec![vec![]], vec![vec![]]);
    for _ in 1..length {
        let longer = |text: &Vec<u8>| (0..k as u8).map(|s| [text.as_slice(), &[s]].concat()).collect::<Vec<_>>();
        longest = longest.iter().flat_map(longer).collect();
        all.extend(longest.clone());
    }
    all
}

fn small(r: &mut Random, n: usize, k: usize) -> Automaton {
    let set = |r: &mut Random| r.below(1 << n) as u32;
    let mut a = blank(n, k);
    (a.initial, a.finals) = (set(r), set(r));
    for q in 0..n {
        for s in 0..k {
            a.targets[q][s] = set(r) & (set(r) | set(r));
        }
    }
    a
}

#[test]
fn worked_by_hand() {
    for (rule, due) in [
        // state 2 is not reached; state 2 leads nowhere
        (by_one(1, 2, &[2, 0, 1]), by_one(1, 2, &[2, 0])),
        (by_one(1, 2, &[6, 0, 4]), by_one(1, 2, &[2, 0])),
        // 1 is alike to 2 and 3 to 4, and neither is reached: they do not stand for the others
        (by_one(1, 24, &[4, 8, 16, 0, 0]), by_one(1, 4, &[2, 4, 0])),
        // the initial state 1 becomes state 0
        (by_one(2, 4, &[2, 4, 0]), by_one(1, 2, &[2, 0])),
        // 2 is alike to 0, which stands for it, where arcs lead and among the initial states
        (by_one(7, 8, &[8, 2, 8, 4]), by_one(1, 2, &[2, 1])),
        // nothing is accepted
        (by_one(1, 4, &[3, 1, 4]), blank(1, 1)),
        (by_one(0, 1, &[1]), blank(1, 1)),
    ] {
        assert_eq!(of(&rule), Reduced { rule: CheckedRule::of(&due), installs: true }, "{rule:?}");
        assert_eq!(of(&due).rule, CheckedRule::of(&due));
    }
}

/// State by state, on rules so small that all texts can be tried: which states are reached, live and alike is
/// asked of texts, and what each number of the reduced rule has to be, of that.
#[test]
fn by_the_words() {
    let (mut r, mut fewer, mut alike_ones) = (Random::new(37, 2), 0, 0);
    for _ in 0..1500 {
        let (n, k) = (r.range(1, 4), r.range(1, 2));
        let a = small(&mut r, n, k);
        // states of at most 16 sets are told apart by a text of fewer symbols
        let (all, short) = (texts(k, if k == 1 { 16 } else { 9 }), texts(k, n + 1));
        let accepts = |q: usize| all.iter().map(|text| a.accepts_from(1 << q, text)).collect::<Vec<bool>>();
        let accepted: Vec<Vec<bool>> = (0..n).map(accepts).collect();
        let reached: Vec<bool> = (0..n).map(|q| short.iter().any(|text| a.after(a.initial, text) >> q & 1 == 1)).collect();
        let live = |q: usize| accepted[q].contains(&true);
        let stands = |q: usize| if live(q) { (0..n).find(|&p| reached[p] && accepted[p] == accepted[q]) } else { None };
        let Reduced { rule, installs } = of(&a);
        let b = rule.automaton().unwrap();
        assert!(installs);
        if !(0..n).any(|q| live(q) && a.initial >> q & 1 == 1) {
            assert_eq!(b, blank(1, k));
            continue;
        }
        // the states that stay: those that stand for initial ones, and for where arcs of these lead
        let mut stay: BTreeSet<usize> = members(a.initial).filter_map(stands).collect();
        for _ in 0..n {
            let further: Vec<u32> = stay.iter().flat_map(|&q| a.targets[q].clone()).collect();
            stay.extend(further.into_iter().flat_map(members).filter_map(stands));
        }
        let old: Vec<usize> = stay.into_iter().collect();
        assert_eq!(b.n, old.len());
        let new = |set: u32| members(set).filter_map(stands).filter_map(|q| old.iter().position(|&p| p == q)).fold(0, |mask, p| mask | 1 << p);
        assert_eq!(b.initial, new(a.initial));
        for (p, &q) in old.iter().enumerate() {
            assert_eq!(b.finals >> p & 1, a.finals >> q & 1);
            assert_eq!(b.targets[p], a.targets[q].iter().map(|&set| new(set)).collect::<Vec<_>>());
            alike_ones += (0..n).any(|other| other != q && reached[other] && stands(other) == Some(q)) as usize;
        }
        for text in &all {
            assert_eq!(b.accepts_from(b.initial, text), a.accepts_from(a.initial, text), "{a:?} {text:?}");
        }
        fewer += (b.n < n) as usize;
    }
    assert!(fewer > 200 && alike_ones > 100, "{fewer} {alike_ones}");
}

/// Large rules: the texts, the three properties, and that nothing is left to reduce.
#[test]
fn large_rules() {
    let (mut r, mut same) = (Random::new(37, 3), 0);
    for _ in 0..400 {
        let a = automaton(&mut r);
        let Ok(Reduced { rule, installs }) = reduce(&CheckedRule::of(&a)) else { continue };
        let compared = compare(&CheckedRule::of(&a), &rule);
        assert!(matches!(compared, Ok(Comparison::Same) | Err(45)), "{compared:?} {a:?}");
        same += (compared == Ok(Comparison::Same)) as usize;
        assert_eq!(installs, Rule::install(&rule).is_ok());
        let Ok(built) = Rule::install(&rule) else { continue };
        let b = &built.automaton;
        assert_eq!(reduce(&rule), Ok(Reduced { rule: rule.clone(), installs: true }));
        if *b == blank(1, b.k) { continue }
        assert!((0..b.n).all(|q| built.delegates[q] == Some(q)));
        let mut reached = b.initial;
        for _ in 0..b.n {
            reached = (0..b.k as u8).fold(reached, |set, s| set | b.successor(reached, s));
        }
        assert!((0..b.n).all(|q| reached >> q & 1 == 1));
    }
    assert!(same > 200, "{same}");
}

/// What is added to a rule in other words goes again: of a reduced rule with so many states more the reduction has
/// no more states.
#[test]
fn in_other_words() {
    let (mut r, mut tried) = (Random::new(37, 4), 0);
    for _ in 0..400 {
        let a = automaton(&mut r);
        let Ok(Reduced { rule, installs: true }) = reduce(&CheckedRule::of(&a)) else { continue };
        let a = rule.automaton().unwrap();
        if a.n == 32 { continue }
        let b = with_a_state_more(&mut r, &a);
        let Ok(again) = reduce(&CheckedRule::of(&reordered(&mut r, &b))) else { continue };
        assert_eq!(again.rule.n, rule.n, "{a:?} {b:?}");
        tried += 1;
    }
    assert!(tried > 100, "{tried}");
}

#[test]
fn the_result_may_have_more_sets() {
    for (row, ring, sets, installs) in [(7, 3, 142, false), (6, 6, 83, true), (6, 7, 85, false)] {
        let a = grows(row, ring);
        assert_eq!(a.sets(512).unwrap().len(), sets);
        let reduced = of(&a);
        assert_eq!((reduced.rule.n as usize, reduced.installs), (a.n - 1, installs));
    }
    assert_eq!(reduce(&of(&grows(7, 3)).rule), Err(9));
}

#[test]
fn refusals_in_order() {
    let mut many = blank(11, 2);
    (many.initial, many.finals, many.targets[0]) = (1, 1 << 10, vec![1, 3]);
    for q in 1..10 { many.targets[q] = vec![2 << q, 2 << q]; }
    let mut rule = CheckedRule::of(&many);
    assert_eq!(reduce(&rule), Err(9));
    rule.targets[0][2] = 1;
    assert_eq!(reduce(&rule), Err(8));
    rule.finals = 1 << 11;
    assert_eq!(reduce(&rule), Err(6));
    rule.k = 17;
    assert_eq!(reduce(&rule), Err(4));
    rule.n = 0;
    assert_eq!(reduce(&rule), Err(3));
}

#[test]
fn the_lines_of_rules() {
    let lines = rules(1, 300);
    let answers: Vec<&str> = lines.lines().map(|line| line.split_once(' ').unwrap().1).collect();
    assert_eq!(answers.len(), 300);
    for kind in ["installs", "too large", "refused 6", "refused 8", "refused 9"] {
        assert!(answers.iter().any(|answer| answer.ends_with(kind)), "{kind}");
    }
}
