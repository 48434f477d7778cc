//! Summaries of chunks, combined and concluded.

use reference::automata::{automaton, blank};
use reference::checked::CheckedRule;
use reference::judge::{Answer, Call, Judge, Work};
use reference::random::Random;
use reference::rule::{Automaton, Rule};
use reference::summaries::{combine, conclude, digest, judged, nothing, summarize, Summary};

/// What ends in 0 1.
fn rule_a() -> Automaton {
    let mut a = blank(3, 2);
    (a.initial, a.finals) = (1, 4);
    (a.targets[0][0], a.targets[0][1], a.targets[1][1]) = (3, 1, 4);
    a
}

/// States 1 and 2 are alike.
fn rule_b() -> Automaton {
    let mut a = blank(3, 1);
    (a.initial, a.finals) = (1, 6);
    (a.targets[0][0], a.targets[1][0], a.targets[2][0]) = (6, 1, 1);
    a
}

fn built(a: &Automaton) -> Rule {
    Rule::install(&CheckedRule::of(a)).ok().unwrap()
}

/// The summary that has these first leads.
fn of(leads: &[u32], count: u64, bytes: u64, rule: &Rule, first: u64, end: u64) -> Summary {
    let mut all = [0; 32];
    all[..leads.len()].copy_from_slice(leads);
    Summary { leads: all, count, bytes, rule: digest(rule), first, end, broken: 0 }
}

fn chunks(r: &mut Random, k: usize, most: usize) -> Vec<Vec<u8>> {
    let byte = |r: &mut Random| if r.one_in(5) { 255 } else { r.below(k) as u8 };
    (0..r.range(1, most)).map(|_| (0..r.below(6)).map(|_| byte(r)).collect()).collect()
}

fn in_any_bracketing(r: &mut Random, mut left: Vec<Summary>) -> Summary {
    while left.len() > 1 {
        let at = r.below(left.len() - 1);
        let later = left.remove(at + 1);
        left[at] = combine(&left[at], &later);
    }
    left.remove(0)
}

fn all(rule: &Rule, chunks: &[Vec<u8>]) -> Vec<Summary> {
    chunks.iter().enumerate().map(|(number, chunk)| summarize(rule, number as u64, chunk).unwrap()).collect()
}

#[test]
fn worked_by_hand() {
    let (a, b) = (built(&rule_a()), built(&rule_b()));
    let (zero, one) = (summarize(&a, 0, &[0, 255]).unwrap(), summarize(&a, 1, &[1]).unwrap());
    assert_eq!(zero, of(&[3], 1, 1, &a, 0, 1));
    assert_eq!(one, of(&[1, 4], 2, 1, &a, 1, 2));
    assert_eq!(combine(&zero, &one), of(&[5], 3, 2, &a, 0, 2));
    assert_eq!(conclude(&a, &combine(&zero, &one), 2), Answer::Yes(Work::new(3, 2)));
    assert_eq!(conclude(&a, &zero, 1), Answer::No(Work::new(1, 1)));
    assert_eq!(summarize(&b, 7, &[0]), Ok(of(&[2, 1], 2, 1, &b, 7, 8)));
    assert_eq!(digest(&a), 0x7E89_FE50_A461_4F1F);
    assert_ne!(digest(&a), digest(&b));
    let last = summarize(&a, u64::MAX, &[0]).unwrap();
    assert_eq!((last.first, last.broken), (u64::MAX, 1));
    assert_eq!(summarize(&a, u64::MAX - 1, &[0]).unwrap().broken, 0);
}

#[test]
fn refusals_in_order() {
    let a = built(&rule_a());
    for (chunk, number) in [(vec![2; 65_537], 12), (vec![255; 65_537], 12), (vec![2; 65_536], 13), (vec![254], 13)] {
        assert_eq!(summarize(&a, 0, &chunk), Err(number));
    }
    let whole = summarize(&a, 0, &[0]).unwrap();
    let mut wrong = Summary { broken: 1, rule: whole.rule ^ 1, end: 5, ..whole.clone() };
    assert_eq!(conclude(&a, &wrong, 1), Answer::Refused(42));
    (wrong.broken, wrong.first) = (0, 1);
    assert_eq!(conclude(&a, &wrong, 1), Answer::Refused(42));
    wrong.first = 0;
    assert_eq!(conclude(&a, &wrong, 1), Answer::Refused(43));
    wrong.rule = whole.rule;
    for (summary, chunks) in [(&wrong, 1), (&whole, 0), (&whole, 2)] {
        assert_eq!(conclude(&a, summary, chunks), Answer::Refused(44));
    }
}

/// 0 and then 1, which this rule rejects. By the delegates of rule B, 0 1 1, it would be a yes.
#[test]
fn no_wrong_yes() {
    let mut a = blank(3, 2);
    (a.initial, a.finals) = (1, 2);
    (a.targets[0][0], a.targets[1][1], a.targets[2][0]) = (4, 2, 2);
    let (rule, b) = (built(&a), built(&rule_b()));
    let (zero, one) = (summarize(&rule, 0, &[0]).unwrap(), summarize(&rule, 1, &[1]).unwrap());
    assert!(matches!(conclude(&rule, &combine(&zero, &one), 2), Answer::No(_)));
    assert_eq!(conclude(&b, &combine(&zero, &one), 2), Answer::Refused(43));
    let mixed = combine(&zero, &summarize(&b, 1, &[0]).unwrap());
    assert_eq!(conclude(&rule, &mixed, 2), Answer::Refused(42));
}

/// Any values: brackets do not matter, and what is broken stays broken.
#[test]
fn associative() {
    let mut r = Random::new(36, 0);
    let any = |r: &mut Random| Summary {
        leads: std::array::from_fn(|_| (r.next() & r.next() & r.next()) as u32),
        count: r.next() >> r.below(64),
        bytes: r.next() >> r.below(64),
        rule: r.below(2) as u64,
        first: r.below(3) as u64,
        end: r.below(3) as u64,
        broken: r.pick(&[0, 0, 0, 1, 255]),
    };
    for _ in 0..20_000 {
        let (a, b, c) = (any(&mut r), any(&mut r), any(&mut r));
        assert_eq!(combine(&combine(&a, &b), &c), combine(&a, &combine(&b, &c)));
        assert!(combine(&a, &b).broken <= 1 && (a.broken == 0 && b.broken == 0 || combine(&a, &b).broken == 1));
    }
}

/// In any brackets the conclusion is that of the texts joined; up to 64 chunks it is that of a filled board.
#[test]
fn as_the_texts_joined_and_as_a_filled_board() {
    let mut r = Random::new(36, 1);
    let (mut yes, mut no) = (0, 0);
    for _ in 0..500 {
        let a = automaton(&mut r);
        let Ok(rule) = Rule::install(&CheckedRule::of(&a)) else { continue };
        let most = if r.one_in(10) { 150 } else { 8 };
        let chunks = chunks(&mut r, a.k, most);
        let whole = in_any_bracketing(&mut r, all(&rule, &chunks));
        let said = conclude(&rule, &whole, chunks.len() as u64);
        assert_eq!(said, judged(&rule, &chunks));
        if matches!(said, Answer::Yes(_)) { yes += 1 } else { no += 1 }
        if chunks.len() > 64 { continue }
        let mut judge = Judge::default();
        judge.call(&Call::Install(Box::new(CheckedRule::of(&a))));
        judge.call(&Call::Open(chunks.len() as u64));
        for (place, chunk) in chunks.iter().enumerate() {
            judge.call(&Call::Deliver(place as u64, 0, chunk.clone()));
        }
        assert_eq!(judge.call(&Call::Verdict), said);
    }
    assert!(yes > 50 && no > 50, "{yes} {no}");
}

/// Any numbered chunks by one rule, in any order and brackets: a conclusion that is not refused is that of the
/// chunks that were used, which are then numbered 0 on, each once, in order.
#[test]
fn whatever_is_put_together() {
    let mut r = Random::new(36, 2);
    let (mut concluded, mut refused) = (0, 0);
    for _ in 0..4000 {
        let rule = built(&if r.one_in(2) { rule_a() } else { rule_b() });
        let chunks = chunks(&mut r, rule.automaton.k, 3);
        let mut picks: Vec<usize> = (0..chunks.len()).collect();
        match r.below(4) {
            0 => picks = (0..r.range(1, 4)).map(|_| r.below(chunks.len())).collect(),
            1 => r.shuffle(&mut picks),
            _ => (),
        }
        let mut made: Vec<Summary> = picks.iter().map(|&c| summarize(&rule, c as u64, &chunks[c]).unwrap()).collect();
        let lost = r.one_in(8);
        if lost { made[0] = nothing(); }
        let asked = r.pick(&[picks.len(), picks.len(), chunks.len()]);
        let said = conclude(&rule, &in_any_bracketing(&mut r, made), asked as u64);
        let used: Vec<Vec<u8>> = picks.iter().map(|&c| chunks[c].clone()).collect();
        if !lost && picks == (0..asked).collect::<Vec<usize>>() {
            assert_eq!(said, judged(&rule, &used));
            concluded += 1;
        } else {
            assert!(matches!(said, Answer::Refused(42 | 44)), "{said:?}");
            refused += 1;
        }
    }
    assert!(concluded > 500 && refused > 500, "{concluded} {refused}");
}
