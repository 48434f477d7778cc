//! A sample trace of a rule, through the wrapper: texts worked by hand, the longest there can be,
//! refusals in their order, and what the judge says of a sample.
use bellbadger::samples::{sample, Wish};
use bellbadger::{CheckedRule, Judge};

/// A rule over 0 and 1, with the targets of each state by both.
fn rule(initials: u32, finals: u32, rows: &[[u32; 2]]) -> CheckedRule {
    let mut targets = [0; 512];
    for (state, row) in rows.iter().enumerate() {
        targets[16 * state..16 * state + 2].copy_from_slice(row);
    }
    CheckedRule {
        n: rows.len() as u8,
        k: 2,
        initials,
        finals,
        targets,
    }
}

/// What ends in 0 1.
fn a() -> CheckedRule {
    rule(1, 4, &[[3, 1], [0, 4], [0, 0]])
}

/// The symbol 1 is the n-th from the end: texts lead to 2 ^ n sets from {0}.
fn from_the_end(n: usize) -> CheckedRule {
    let mut rows = vec![[1, 3]];
    rows.extend((1..n).map(|q| [2 << q, 2 << q]));
    rows.push([0, 0]);
    rule(1, 1 << n, &rows)
}

fn text(wish: Wish, rule: &CheckedRule) -> Option<Vec<u8>> {
    sample(wish, rule).expect("the rule is no refusal")
}

fn refused(rule: &CheckedRule) -> u8 {
    let numbers =
        [Wish::Accepted, Wish::Rejected].map(|wish| sample(wish, rule).unwrap_err().number());
    assert_eq!(numbers[0], numbers[1]);
    numbers[0]
}

#[test]
fn worked_by_hand() {
    assert_eq!(text(Wish::Accepted, &a()), Some(vec![0, 1]));
    assert_eq!(text(Wish::Rejected, &a()), Some(vec![]));
    let every = rule(1, 1, &[[1, 1]]);
    assert_eq!(text(Wish::Accepted, &every), Some(vec![]));
    assert_eq!(text(Wish::Rejected, &every), None);
    let nothing = rule(0, 1, &[[1, 1]]);
    assert_eq!(text(Wish::Accepted, &nothing), None);
    assert_eq!(text(Wish::Rejected, &nothing), Some(vec![]));
    let not_0_first = rule(1, 3, &[[0, 2], [2, 2]]);
    assert_eq!(text(Wish::Rejected, &not_0_first), Some(vec![0]));
}

#[test]
fn up_to_512_sets() {
    let nine = from_the_end(9);
    let due = [1, 0, 0, 0, 0, 0, 0, 0, 0];
    assert_eq!(text(Wish::Accepted, &nine), Some(due.to_vec()));
    assert_eq!(refused(&CheckedRule { k: 3, ..nine }), 35);
    assert_eq!(refused(&from_the_end(10)), 35);
    assert_eq!(
        sample(Wish::Accepted, &from_the_end(10))
            .unwrap_err()
            .to_string(),
        "refused 35: more than 512 sets are reached from the set of initial states"
    );
}

/// Cycles of 7, 8 and 9 states and a chain of 8 that ends: 512 sets in a row, of which the last alone
/// has no final state.
#[test]
fn the_longest() {
    let mut long = CheckedRule {
        k: 1,
        ..rule(0, 0, &[[0, 0]; 32])
    };
    let mut at = 0;
    for (size, cycle) in [(7, true), (8, true), (9, true), (8, false)] {
        long.initials |= 1 << at;
        for i in 0..size {
            if !cycle || i != 511 % size {
                long.finals |= 1 << (at + i);
            }
            if i + 1 < size {
                long.targets[16 * (at + i)] = 1 << (at + i + 1);
            } else if cycle {
                long.targets[16 * (at + i)] = 1 << at;
            }
        }
        at += size;
    }
    assert_eq!(text(Wish::Rejected, &long), Some(vec![0; 511]));
}

#[test]
fn refusals_in_their_order() {
    let mut bad = from_the_end(10);
    bad.targets[2] = 1;
    assert_eq!(refused(&bad), 8);
    bad.finals = 1 << 11;
    assert_eq!(refused(&bad), 6);
    bad.k = 17;
    assert_eq!(refused(&bad), 4);
    bad.n = 33;
    assert_eq!(refused(&bad), 3);
}

#[test]
fn what_the_judge_says_of_a_sample() {
    for rule in [
        a(),
        from_the_end(3),
        rule(1, 2, &[[2, 1], [1, 3]]),
        rule(1, 2, &[[1, 2], [0, 0]]),
    ] {
        for (wish, due) in [(Wish::Accepted, true), (Wish::Rejected, false)] {
            let chunk = text(wish, &rule).expect("there is such a text");
            let mut judge = Judge::new();
            let _loaded = judge.install(&rule).expect("the rule is installed");
            judge.open(1).expect("a board of one place");
            let _looked = judge.deliver(0, 0, &chunk).expect("the chunk is taken");
            let said = judge.verdict().expect("a verdict").verdict;
            assert_eq!(said.is_yes(), due, "{rule:?} {chunk:?}");
        }
    }
}
