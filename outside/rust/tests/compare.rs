//! Two rules compared, through the wrapper: worked by hand, the longest text there can be, refusals in
//! their order, small random rules beside all texts in their order, and what the judge says of a text.
use bellbadger::compare::{
    compare,
    Comparison::{self, FirstAlone, Same, SecondAlone},
};
use bellbadger::{CheckedRule, Judge};

/// A rule over 0 and 1, with the targets of each state by both.
fn rule(initials: u32, finals: u32, rows: &[[u32; 2]]) -> CheckedRule {
    let mut targets = [0; 512];
    for (state, row) in rows.iter().enumerate() {
        targets[16 * state..16 * state + 2].copy_from_slice(row);
    }
    CheckedRule {
        n: rows.len() as u8,
        k: 2,
        initials,
        finals,
        targets,
    }
}

/// What ends in 0 1.
fn a() -> CheckedRule {
    rule(1, 4, &[[3, 1], [0, 4], [0, 0]])
}

/// The symbol 1 is the n-th from the end: texts lead to 2 ^ n sets from {0}.
fn from_the_end(n: usize) -> CheckedRule {
    let mut rows = vec![[1, 3]];
    rows.extend((1..n).map(|q| [2 << q, 2 << q]));
    rows.push([0, 0]);
    rule(1, 1 << n, &rows)
}

fn refused(one: &CheckedRule, two: &CheckedRule) -> u8 {
    compare(one, two).unwrap_err().number()
}

/// The first of the two alone accepts the text; turned round, the second.
fn apart(one: &CheckedRule, two: &CheckedRule, text: &[u8]) {
    assert_eq!(compare(one, two), Ok(FirstAlone(text.to_vec())));
    assert_eq!(compare(two, one), Ok(SecondAlone(text.to_vec())));
}

#[test]
fn worked_by_hand() {
    let every = rule(1, 1, &[[1, 1]]);
    let nothing = rule(1, 0, &[[1, 1]]);
    let in_another_order = rule(4, 1, &[[0, 0], [0, 1], [6, 4]]);
    assert_eq!(compare(&a(), &a()), Ok(Same));
    assert_eq!(compare(&a(), &in_another_order), Ok(Same));
    assert_eq!(compare(&nothing, &rule(0, 1, &[[1, 1]])), Ok(Same));
    apart(&every, &nothing, &[]);
    apart(&a(), &nothing, &[0, 1]);
    apart(&every, &a(), &[]);
    let and_0_1_1 = rule(1, 4, &[[3, 1], [0, 4], [0, 4]]);
    apart(&and_0_1_1, &a(), &[0, 1, 1]);
}

/// That there is an answer, `Ok(..)`, is not enough.
#[test]
fn only_same_is_same() {
    assert!(Same.is_same());
    assert!(!FirstAlone(vec![]).is_same() && !SecondAlone(vec![0]).is_same());
}

/// By 0 alone: cycles of 7, 8 and 9 states, all final but those that so many symbols lead to.
fn cycles(spared: Option<usize>) -> CheckedRule {
    let mut r = CheckedRule {
        k: 1,
        ..rule(0, 0, &[[0, 0]; 24])
    };
    let mut at = 0;
    for size in [7, 8, 9] {
        r.initials |= 1 << at;
        for i in 0..size {
            if spared.is_none_or(|spared| i != spared % size) {
                r.finals |= 1 << (at + i);
            }
            r.targets[16 * (at + i)] = 1 << (at + (i + 1) % size);
        }
        at += size;
    }
    r
}

/// By 0 alone: n states in a row, of which the last stays, all final but the one that is spared.
fn row(n: usize, spared: Option<usize>) -> CheckedRule {
    let mut r = CheckedRule {
        k: 1,
        ..rule(1, 0, &vec![[0, 0]; n])
    };
    for q in 0..n {
        r.targets[16 * q] = 1 << (q + 1).min(n - 1);
        if spared != Some(q) {
            r.finals |= 1 << q;
        }
    }
    r
}

#[test]
fn up_to_512_pairs() {
    assert_eq!(compare(&cycles(None), &row(9, None)), Ok(Same));
    assert_eq!(refused(&cycles(None), &row(10, None)), 45);
    apart(&row(9, Some(7)), &cycles(Some(7)), &[0; 511]);
    assert_eq!(refused(&row(10, Some(8)), &cycles(Some(8))), 45);
    let (ten, twenty) = (from_the_end(10), from_the_end(20));
    assert_eq!(refused(&ten, &ten), 45);
    assert_eq!(refused(&ten, &twenty), 45);
    apart(&from_the_end(9), &twenty, &[1, 0, 0, 0, 0, 0, 0, 0, 0]);
    assert_eq!(
        compare(&ten, &ten).unwrap_err().to_string(),
        "refused 45: within 512 pairs of sets the rules do not differ, and there are more"
    );
}

#[test]
fn refusals_in_their_order() {
    let plain = |n, k| CheckedRule {
        n,
        k,
        ..rule(1, 1, &[])
    };
    let mut mask = plain(2, 2);
    mask.finals = 4;
    let mut target = plain(2, 2);
    target.targets[2] = 1;
    for (one, two, due) in [
        (plain(33, 17), mask, 3),
        (plain(32, 17), plain(33, 2), 4),
        (mask, plain(0, 0), 6),
        (target, mask, 8),
        (from_the_end(10), plain(0, 1), 3),
        (from_the_end(10), plain(1, 0), 4),
        (plain(32, 1), mask, 6),
        (plain(32, 1), target, 8),
        (plain(32, 1), from_the_end(10), 36),
        (from_the_end(10), from_the_end(10), 45),
    ] {
        assert_eq!(refused(&one, &two), due);
    }
}

fn accepts(rule: &CheckedRule, text: &[u8]) -> bool {
    let step = |set: u32, symbol: u8| {
        (0..usize::from(rule.n))
            .filter(|q| set >> q & 1 == 1)
            .fold(0, |next, q| {
                next | rule.targets[16 * q + usize::from(symbol)]
            })
    };
    let set = text
        .iter()
        .fold(rule.initials, |set, &symbol| step(set, symbol));
    set & rule.finals != 0
}

/// Texts in their order: two deterministic automata, here of the sets of up to two states each, are told
/// apart by a text shorter than their numbers of states together.
fn first_of_all(one: &CheckedRule, two: &CheckedRule) -> Comparison {
    let mut texts: Vec<Vec<u8>> = vec![vec![]];
    for _ in 0..8 {
        for text in &texts {
            match (accepts(one, text), accepts(two, text)) {
                (true, false) => return FirstAlone(text.clone()),
                (false, true) => return SecondAlone(text.clone()),
                _ => (),
            }
        }
        let longer = |text: &Vec<u8>| [0, 1].map(|symbol| [text.as_slice(), &[symbol]].concat());
        texts = texts.iter().flat_map(longer).collect();
    }
    Same
}

#[test]
fn the_first_of_all_texts() {
    let mut seed = 88_172_645_463_325_252_u64;
    let mut below = |n: u64| {
        seed ^= seed << 13;
        seed ^= seed >> 7;
        seed ^= seed << 17;
        ((seed >> 33) % n) as u32
    };
    let mut seen = [0; 3];
    for _ in 0..1000 {
        let mut any = || {
            let n = 1 + below(2);
            let mut set = || below(1 << n) & (below(1 << n) | below(1 << n));
            let rows: Vec<[u32; 2]> = (0..n).map(|_| [set(), set()]).collect();
            rule(set() | 1, set(), &rows)
        };
        let (one, two) = (any(), any());
        let due = first_of_all(&one, &two);
        seen[match due {
            FirstAlone(_) => 0,
            SecondAlone(_) => 1,
            Same => 2,
        }] += 1;
        assert_eq!(compare(&one, &two), Ok(due), "{one:?} {two:?}");
    }
    assert!(seen.iter().all(|&times| times > 100), "{seen:?}");
}

/// Whether the judge says yes to a text, with the rule installed.
fn judged(rule: &CheckedRule, text: &[u8]) -> bool {
    let mut judge = Judge::new();
    let _loaded = judge.install(rule).expect("the rule is installed");
    judge.open(1).expect("a board of one place");
    let _looked = judge.deliver(0, 0, text).expect("the chunk is taken");
    judge.verdict().is_ok_and(|report| report.is_yes())
}

#[test]
fn what_the_judge_says_of_the_text() {
    let even_0s = rule(1, 1, &[[2, 1], [1, 2]]);
    let rules = [a(), even_0s, from_the_end(3), rule(1, 2, &[[1, 2], [0, 0]])];
    for (i, one) in rules.iter().enumerate() {
        for (j, two) in rules.iter().enumerate() {
            let (text, due) = match compare(one, two).expect("they are compared") {
                FirstAlone(text) => (text, (true, false)),
                SecondAlone(text) => (text, (false, true)),
                Same => {
                    assert_eq!(i, j);
                    continue;
                }
            };
            assert_eq!((judged(one, &text), judged(two, &text)), due);
        }
    }
}
