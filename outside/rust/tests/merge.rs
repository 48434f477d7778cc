//! Two rules made one, through the wrapper, as they are and reduced: the results worked by hand,
//! refusals in their order, and what the judge says with the result installed; random rules
//! reduced, whose texts and states are looked at.
use bellbadger::compare::compare;
use bellbadger::merge::{merge, merge_reduced, Way};
use bellbadger::patterns::rule_file;
use bellbadger::reduce::reduce;
use bellbadger::{read, CheckedRule, Judge};

const WAYS: [Way; 3] = [Way::Both, Way::Either, Way::Interleaving];

/// A rule over 0 and 1, with the targets of each state by both.
fn rule(initials: u32, finals: u32, rows: &[[u32; 2]]) -> CheckedRule {
    let mut targets = [0; 512];
    for (state, row) in rows.iter().enumerate() {
        targets[16 * state..16 * state + 2].copy_from_slice(row);
    }
    CheckedRule {
        n: rows.len() as u8,
        k: 2,
        initials,
        finals,
        targets,
    }
}

/// What ends in 0 1.
fn a() -> CheckedRule {
    rule(1, 4, &[[3, 1], [0, 4], [0, 0]])
}

/// What has an even number of 0s.
fn e() -> CheckedRule {
    rule(1, 1, &[[2, 1], [1, 2]])
}

fn plain(n: u8, k: u8) -> CheckedRule {
    CheckedRule {
        n,
        k,
        ..rule(1, 1, &[])
    }
}

/// Whether the judge says yes to a text, with the rule installed.
fn accepts(rule: &CheckedRule, text: &[u8]) -> bool {
    let mut judge = Judge::new();
    let _loaded = judge.install(rule).expect("the rule is installed");
    judge.open(1).expect("a board of one place");
    let _looked = judge.deliver(0, 0, text).expect("the chunk is taken");
    judge.verdict().is_ok_and(|report| report.is_yes())
}

#[test]
fn worked_by_hand() {
    let both = [[24, 1], [0, 4], [0, 0], [3, 8], [0, 32], [0, 0]];
    let either = [[2, 1], [1, 2], [12, 4], [0, 16], [0, 0]];
    let woven = [[11, 1], [16, 6], [32, 4], [25, 8], [2, 48], [4, 32]];
    assert_eq!(merge(Way::Both, &e(), &a()), Ok(rule(1, 4, &both)));
    assert_eq!(merge(Way::Either, &e(), &a()), Ok(rule(5, 17, &either)));
    assert_eq!(merge(Way::Interleaving, &e(), &a()), Ok(rule(1, 4, &woven)));
}

#[test]
fn texts() {
    let results = WAYS.map(|way| merge(way, &e(), &a()).expect("the two are merged"));
    for (text, due) in [
        (&[][..], [false, true, false]),
        (&[0, 1], [false, true, true]),
        (&[0, 0, 1], [true, true, true]),
        (&[0, 0], [false, true, false]),
        (&[1, 0, 1, 1], [false, false, true]),
        (&[0, 1, 0], [false, true, false]),
        (&[0, 1, 0, 0], [false, false, true]),
        (&[1], [false, true, false]),
    ] {
        for (rule, due) in results.iter().zip(due) {
            assert_eq!(accepts(rule, text), due, "{rule:?} {text:?}");
        }
    }
}

/// What either function refuses with: 3, 4, 6 and 8 of the first rule, then of the second, 36.
#[test]
fn refusals_in_their_order() {
    let mut mask = plain(2, 2);
    mask.finals = 4;
    let mut target = plain(2, 2);
    target.targets[2] = 1;
    for way in WAYS {
        for (one, two, due) in [
            (plain(33, 17), mask, 3),
            (plain(32, 17), plain(33, 2), 4),
            (mask, plain(0, 0), 6),
            (target, mask, 8),
            (plain(32, 1), plain(0, 1), 3),
            (plain(32, 1), target, 8),
            (plain(32, 2), plain(32, 0), 4),
            (plain(32, 1), mask, 6),
            (plain(32, 1), plain(32, 2), 36),
        ] {
            assert_eq!(merge(way, &one, &two).unwrap_err().number(), due);
            assert_eq!(merge_reduced(way, &one, &two).unwrap_err().number(), due);
        }
        // the states of these are alike
        let large = merge(way, &plain(32, 2), &plain(32, 2));
        assert_eq!(large.unwrap_err().number(), 37);
        let reduced = merge_reduced(way, &plain(32, 2), &plain(32, 2));
        assert_eq!(reduced.map(|rule| rule.n), Ok(1));
    }
    let refused = merge(Way::Both, &plain(16, 1), &plain(16, 1)).unwrap_err();
    assert_eq!(
        refused.to_string(),
        "refused 37: the two rules made one take more than 32 states"
    );
    let largest = merge(Way::Both, &plain(4, 1), &plain(8, 1));
    assert_eq!(largest.map(|rule| rule.n), Ok(32));
}

#[test]
fn reduced_by_hand() {
    // an odd number of 0s, and 1 or nothing to come: these two pairs go
    let both = [[8, 1], [0, 4], [0, 0], [3, 8]];
    assert_eq!(merge_reduced(Way::Both, &e(), &a()), Ok(rule(1, 4, &both)));
    for way in [Way::Either, Way::Interleaving] {
        assert_eq!(merge_reduced(way, &e(), &a()), merge(way, &e(), &a()));
    }
    let nothing = rule(0, 0, &[[0, 0]]);
    let none = rule(1, 0, &[[1, 1]]);
    for way in [Way::Both, Way::Interleaving] {
        assert_eq!(merge_reduced(way, &none, &a()), Ok(nothing));
    }
    assert_eq!(merge_reduced(Way::Either, &none, &a()), Ok(a()));
}

/// Five states by nine are 45 pairs, of which four are needed.
#[test]
fn five_states_by_nine() {
    let [one, two] = [&b"(ab)*cd"[..], b"(ab|ab|ab)*cd"].map(|pattern| {
        let file = rule_file(pattern).expect("the pattern is one");
        read(&file).expect("its file is one")
    });
    assert_eq!((one.n, two.n), (5, 9));
    assert_eq!(merge(Way::Both, &one, &two).unwrap_err().number(), 37);
    let mut due = CheckedRule {
        k: 16,
        ..rule(1, 8, &[[2, 0], [0, 1], [0, 0], [0, 0]])
    };
    (due.targets[2], due.targets[32 + 3]) = (4, 8);
    assert_eq!(merge_reduced(Way::Both, &one, &two), Ok(due));
    assert_eq!(merge_reduced(Way::Either, &one, &two), Ok(due));
}

/// By one symbol round so many states.
fn cycle(n: u8) -> CheckedRule {
    let rows: Vec<[u32; 2]> = (0..n).map(|q| [1 << ((q + 1) % n), 0]).collect();
    CheckedRule {
        k: 1,
        ..rule(1, 1, &rows)
    }
}

/// 37 is due to pairs that are reachable and live, be they alike or not, and of no others.
#[test]
fn thirty_seven() {
    let refused = |way, one, two| merge_reduced(way, &one, &two).unwrap_err().number();
    assert_eq!(
        merge_reduced(Way::Both, &cycle(32), &cycle(32)),
        Ok(cycle(32))
    );
    assert_eq!(refused(Way::Both, cycle(5), cycle(7)), 37);
    assert_eq!(refused(Way::Either, cycle(16), cycle(17)), 37);
    assert_eq!(refused(Way::Interleaving, cycle(3), cycle(11)), 37);
    let either = merge_reduced(Way::Either, &cycle(15), &cycle(17));
    assert_eq!(either.map(|rule| rule.n), Ok(32));
    let woven = merge_reduced(Way::Interleaving, &cycle(4), &cycle(8));
    assert!(woven.is_ok_and(|rule| rule.n < 32));
}

/// The symbol 1 is the tenth from the end: 11 states, over 512 sets. Such a rule is taken as it is.
#[test]
fn a_step_that_is_left_out() {
    let mut rows = vec![[1, 3]];
    rows.extend((1..10).map(|q| [2 << q, 2 << q]));
    rows.push([0, 0]);
    let (many, every) = (rule(1, 1 << 10, &rows), rule(1, 1, &[[1, 1]]));
    assert_eq!(reduce(&many).unwrap_err().number(), 9);
    assert_eq!(merge_reduced(Way::Both, &many, &every), Ok(many));
    assert_eq!(merge_reduced(Way::Both, &every, &many), Ok(many));
}

/// Of random rules: the texts of merging, and nothing that reducing would take out.
#[test]
fn random_rules() {
    let mut seed = 88_172_645_463_325_252_u64;
    let mut below = |n: u64| {
        seed ^= seed << 13;
        seed ^= seed >> 7;
        seed ^= seed << 17;
        ((seed >> 33) % n) as u32
    };
    let (mut smaller, mut beyond) = (0, 0);
    for _ in 0..200 {
        let [one, two] = [(); 2].map(|()| {
            let n = 1 + below(7);
            let mut set = || below(1 << n) & below(1 << n);
            let rows: Vec<[u32; 2]> = (0..n).map(|_| [set(), set()]).collect();
            rule(set() | 1, set(), &rows)
        });
        for way in WAYS {
            let Ok(made) = merge_reduced(way, &one, &two) else {
                assert!(merge(way, &one, &two).is_err());
                continue;
            };
            if let Ok(reduced) = reduce(&made) {
                assert_eq!(reduced.rule, made);
            }
            let Ok(whole) = merge(way, &one, &two) else {
                beyond += 1;
                continue;
            };
            smaller += usize::from(made.n < whole.n);
            // 45: too many pairs of sets
            assert!(compare(&whole, &made)
                .map_or_else(|refused| refused.number() == 45, |told| told.is_same()));
        }
    }
    assert!(smaller > 100 && beyond > 20, "{smaller} {beyond}");
}
