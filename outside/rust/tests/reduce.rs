//! A rule reduced, through the wrapper: worked by hand, random rules of which every state is looked at, a
//! reduction that cannot be installed, and refusals in their order.
use bellbadger::compare::compare;
use bellbadger::reduce::{reduce, Reduced};
use bellbadger::{CheckedRule, Judge};

/// A rule over 0 and 1, with the targets of each state by both.
fn rule(initials: u32, finals: u32, rows: &[[u32; 2]]) -> CheckedRule {
    let mut targets = [0; 512];
    for (state, row) in rows.iter().enumerate() {
        targets[16 * state..16 * state + 2].copy_from_slice(row);
    }
    CheckedRule {
        n: rows.len() as u8,
        k: 2,
        initials,
        finals,
        targets,
    }
}

/// A rule over 0 alone, with the targets of each state.
fn by_one(initials: u32, finals: u32, targets: &[u32]) -> CheckedRule {
    let rows: Vec<[u32; 2]> = targets.iter().map(|&set| [set, 0]).collect();
    CheckedRule {
        k: 1,
        ..rule(initials, finals, &rows)
    }
}

fn refused(rule: &CheckedRule) -> u8 {
    reduce(rule).unwrap_err().number()
}

#[test]
fn worked_by_hand() {
    let nothing = by_one(0, 0, &[0]);
    for (rule, due) in [
        // state 2 is not reached; state 2 leads nowhere
        (by_one(1, 2, &[2, 0, 1]), by_one(1, 2, &[2, 0])),
        (by_one(1, 2, &[6, 0, 4]), by_one(1, 2, &[2, 0])),
        // 1 is alike to 2 and 3 to 4, and neither is reached
        (by_one(1, 24, &[4, 8, 16, 0, 0]), by_one(1, 4, &[2, 4, 0])),
        // the initial state 1 becomes state 0
        (by_one(2, 4, &[2, 4, 0]), by_one(1, 2, &[2, 0])),
        // 0 stands for 2, and 1 leads nowhere
        (by_one(7, 8, &[8, 2, 8, 4]), by_one(1, 2, &[2, 1])),
        (by_one(1, 4, &[3, 1, 4]), nothing),
        (by_one(0, 1, &[1]), nothing),
    ] {
        let due = Reduced {
            rule: due,
            installs: true,
        };
        assert_eq!(reduce(&rule), Ok(due));
        assert_eq!(reduce(&due.rule), Ok(due));
    }
    let ends_in_0_1 = rule(1, 4, &[[3, 1], [0, 4], [0, 0]]);
    assert_eq!(reduce(&ends_in_0_1).map(|r| r.rule), Ok(ends_in_0_1));
}

/// The states that can be reached from a set.
fn onward(rule: &CheckedRule, from: u32) -> u32 {
    (0..32).fold(from, |set, _| {
        let member = |c: &usize| set >> (c / 16) & 1 == 1;
        (0..512)
            .filter(member)
            .fold(set, |set, c| set | rule.targets[c])
    })
}

/// Every state is reached, every state is live, no two accept the same texts, and the texts are the same.
fn is_lean(from: &CheckedRule, rule: &CheckedRule) {
    assert!(compare(from, rule).is_ok_and(|compared| compared.is_same()));
    if rule.n == 1 && rule.finals == 0 {
        let k = rule.k;
        assert_eq!(
            *rule,
            CheckedRule {
                k,
                ..by_one(0, 0, &[0])
            }
        );
        return;
    }
    assert_eq!(
        onward(rule, rule.initials),
        u32::MAX >> (32 - u32::from(rule.n))
    );
    let starting = |q: u8| CheckedRule {
        initials: 1 << q,
        ..*rule
    };
    for q in 0..rule.n {
        assert_ne!(onward(rule, 1 << q) & rule.finals, 0);
        for p in 0..q {
            assert!(compare(&starting(p), &starting(q)).is_ok_and(|compared| !compared.is_same()));
        }
    }
}

#[test]
fn random_rules() {
    let mut seed = 88_172_645_463_325_252_u64;
    let mut below = |n: u64| {
        seed ^= seed << 13;
        seed ^= seed >> 7;
        seed ^= seed << 17;
        ((seed >> 33) % n) as u32
    };
    let mut fewer = 0;
    for _ in 0..400 {
        let n = 1 + below(6);
        let mut set = || below(1 << n) & below(1 << n);
        let rows: Vec<[u32; 2]> = (0..n).map(|_| [set(), set()]).collect();
        let some = rule(set() | 1, set(), &rows);
        let reduced = reduce(&some).expect("it is reduced");
        assert!(reduced.installs);
        is_lean(&some, &reduced.rule);
        fewer += usize::from(reduced.rule.n < some.n);
    }
    assert!(fewer > 150, "{fewer}");
}

/// State 0 accepts all texts, and by 1 begins a row of seven states; the last state of all, to which a
/// ring of three leads, accepts all texts too. A rule of 142 sets, and its reduction has over 512.
#[test]
fn the_result_may_have_too_many_sets() {
    let mut rows = vec![[1, 3]];
    rows.extend((1..7).map(|q| [2 << q, 2 << q]));
    rows.extend([
        [0, 0],
        [1 << 9, 1 << 9 | 1 << 11],
        [1 << 10, 1 << 10],
        [1 << 8, 1 << 8],
        [1 << 11, 1 << 11],
    ]);
    let grows = rule(1 | 1 << 8, 1 | 1 << 7 | 1 << 11, &rows);
    let mut judge = Judge::new();
    assert_eq!(judge.install(&grows).map(|loaded| loaded.sets), Ok(142));
    let reduced = reduce(&grows).expect("it is reduced");
    assert_eq!((reduced.rule.n, reduced.installs), (11, false));
    is_lean(&grows, &reduced.rule);
    assert_eq!(judge.install(&reduced.rule).unwrap_err().number(), 9);
    assert_eq!(refused(&reduced.rule), 9);
}

#[test]
fn refusals_in_their_order() {
    let mut rows = vec![[1, 3]];
    rows.extend((1..10).map(|q| [2 << q, 2 << q]));
    rows.push([0, 0]);
    let mut bad = rule(1, 1 << 10, &rows);
    assert_eq!(refused(&bad), 9);
    bad.targets[2] = 1;
    assert_eq!(refused(&bad), 8);
    bad.finals = 1 << 11;
    assert_eq!(refused(&bad), 6);
    bad.k = 17;
    assert_eq!(refused(&bad), 4);
    bad.n = 0;
    assert_eq!(refused(&bad), 3);
}
