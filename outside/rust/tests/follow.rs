//! Following a trace: chunks worked by hand, refusals that stand until they are dropped, and random rules of
//! up to 32 states against plain runs and against a filled board with the same chunks.
use bellbadger::follow::{Followed, Follower};
use bellbadger::{read, CheckedRule, Judge};

const A: [u8; 30] = [
    0x03, 0x02, 0x01, 0, 0, 0, 0x04, 0, 0, 0, 0x16, 0, 0x06, 0, 0x1C, 0, 0x02, 0, 0x1E, 0, 0, 0, 0,
    0, 0, 1, 1, 0, 1, 2,
];

/// 0 and then 1, and nothing else.
fn once() -> CheckedRule {
    let mut rule = CheckedRule {
        n: 3,
        k: 2,
        initials: 1,
        finals: 4,
        targets: [0; 512],
    };
    (rule.targets[0], rule.targets[17]) = (2, 4);
    rule
}

fn fresh(rule: &CheckedRule) -> Follower {
    Follower::new(rule).expect("the rule is well formed")
}

/// Accepted so far, where lost, the symbols expected, whether complete.
type Told = (bool, Option<usize>, Vec<u8>, bool);

fn told(f: Followed) -> Told {
    let symbols = f.expected.to_vec();
    assert!((0..=255).all(|s| f.expected.contains(s) == symbols.contains(&s)));
    assert_eq!(f.expected.is_empty(), symbols.is_empty());
    (f.is_accepted_so_far(), f.lost, symbols, f.complete)
}

#[test]
fn worked_by_hand() {
    let mut a = fresh(&read(&A).unwrap());
    assert_eq!(
        told(a.follow(&[0]).unwrap()),
        (false, None, vec![0, 1], false)
    );
    assert_eq!(
        told(a.follow(&[255, 1]).unwrap()),
        (true, None, vec![0, 1], true)
    );
    assert_eq!(told(a.follow(&[]).unwrap()), (true, None, vec![0, 1], true));
    assert_eq!(
        format!("{a:?}"),
        "Follower { states: 3, symbols: 2, reached: 2, refused: None, .. }"
    );
    let mut late = fresh(&once());
    assert_eq!(
        told(late.follow(&[255, 0, 255, 1]).unwrap()),
        (true, None, vec![], true)
    );
    assert_eq!(
        told(late.follow(&[255, 1]).unwrap()),
        (false, Some(2), vec![], true)
    );
    for chunk in [&[][..], &[0, 1]] {
        assert_eq!(
            told(late.follow(chunk).unwrap()),
            (false, Some(0), vec![], false)
        );
    }
    let mut early = fresh(&once());
    let lost = early.follow(&[0, 0, 1]).unwrap();
    assert_eq!(told(lost), (false, Some(2), vec![1], false));
    assert_eq!(format!("{:?}", lost.expected), "{1}");
}

/// From each state any symbol leads to the next one, and from the last nowhere.
#[test]
fn every_symbol_and_state() {
    let mut rule = CheckedRule {
        n: 32,
        k: 16,
        initials: 1,
        finals: 1 << 31,
        targets: [0; 512],
    };
    for cell in 0..31 * 16 {
        rule.targets[cell] = 2 << (cell / 16);
    }
    let (mut follower, all) = (fresh(&rule), (0..16).collect());
    assert_eq!(
        told(follower.follow(&[0; 30]).unwrap()),
        (false, None, all, false)
    );
    assert_eq!(
        told(follower.follow(&[15]).unwrap()),
        (true, None, vec![], true)
    );
    assert_eq!(
        told(follower.follow(&[15]).unwrap()),
        (false, Some(1), vec![], true)
    );
}

/// Without the refused chunk 0 and 1 came, which would be accepted: so nothing is followed behind it.
#[test]
fn a_refusal_stands() {
    let mut follower = fresh(&once());
    for (chunk, number) in [(vec![1, 2], 13), (vec![254], 13), (vec![255; 65537], 12)] {
        follower.begin();
        assert!(!follower.follow(&[0]).unwrap().is_accepted_so_far());
        let before = follower.clone();
        for later in [&chunk[..], &[1], &[], &[254]] {
            assert_eq!(follower.follow(later).unwrap_err().number(), number);
            assert!(follower != before);
        }
        assert_eq!(follower.refused().map(|r| r.number()), Some(number));
        assert_eq!(
            format!("{follower:?}"),
            format!(
                "Follower {{ states: 3, symbols: 2, reached: 1, refused: Some({number}), .. }}"
            )
        );
        follower.drop_refused();
        assert!(follower == before && follower.refused().is_none());
    }
    assert!(follower.follow(&[255; 65536]).unwrap().lost.is_none());
    assert!(follower.follow(&[1]).unwrap().is_accepted_so_far());
    follower.drop_refused();
    assert!(follower.follow(&[]).unwrap().is_accepted_so_far());
}

#[test]
fn begun_anew() {
    let mut follower = fresh(&once());
    assert!(follower.follow(&[0, 0]).unwrap().lost.is_some());
    assert_eq!(follower.follow(&[2]).unwrap_err().number(), 13);
    follower.begin();
    assert!(follower == fresh(&once()));
    assert!(follower.follow(&[0, 1]).unwrap().is_accepted_so_far());
}

#[test]
fn refused_rules() {
    let refused = |change: fn(&mut CheckedRule)| {
        let mut rule = once();
        change(&mut rule);
        Follower::new(&rule).unwrap_err().number()
    };
    assert_eq!(refused(|r| (r.n, r.k) = (0, 0)), 3);
    assert_eq!(refused(|r| (r.k, r.finals) = (17, 8)), 4);
    assert_eq!(refused(|r| (r.initials, r.targets[2]) = (8, 1)), 6);
    assert_eq!(refused(|r| r.targets[2] = 1), 8);
}

struct Random(u64);

impl Random {
    fn below(&mut self, bound: usize) -> usize {
        self.0 ^= self.0 << 13;
        self.0 ^= self.0 >> 7;
        self.0 ^= self.0 << 17;
        (self.0 >> 20) as usize % bound
    }

    /// A rule of up to 32 states, with few arcs; from some state on no arc leads back.
    fn rule(&mut self) -> CheckedRule {
        let (n, k) = (1 + self.below(32), 1 + self.below(4));
        let fence = 1 + self.below(n);
        let mut rule = CheckedRule {
            n: n as u8,
            k: k as u8,
            initials: 1 << self.below(fence),
            finals: 1 << self.below(n) | 1 << self.below(fence),
            targets: [0; 512],
        };
        for q in 0..n {
            let from = if q < fence { 0 } else { fence };
            for s in 0..k {
                if self.below(8) > 0 {
                    rule.targets[16 * q + s] |= 1 << (from + self.below(n - from));
                }
                if self.below(20) == 0 {
                    rule.targets[16 * q + s] |= 1 << (from + self.below(n - from));
                }
            }
        }
        rule
    }
}

fn step(rule: &CheckedRule, set: u32, symbol: u8) -> u32 {
    let from = (0..32).filter(|q| set >> q & 1 == 1);
    from.fold(0, |to, q| to | rule.target_mask(q, symbol))
}

/// Whether some text leads from the set to a final state: as many steps by every symbol as there are states.
fn can_end(rule: &CheckedRule, mut set: u32) -> bool {
    for _ in 0..rule.n {
        set = (0..rule.k).fold(set, |more, s| more | step(rule, set, s));
    }
    set & rule.finals != 0
}

/// What a chunk has to be answered, and the set after it.
fn due(rule: &CheckedRule, mut set: u32, chunk: &[u8]) -> (Told, u32) {
    let mut lost = (!can_end(rule, set)).then_some(0);
    let mut before = set;
    for (i, &byte) in chunk.iter().enumerate() {
        if byte != 255 {
            set = step(rule, set, byte);
        }
        if lost.is_none() {
            lost = (!can_end(rule, set)).then_some(i + 1);
        }
        if lost.is_none() {
            before = set;
        }
    }
    let expected = |&s: &u8| can_end(rule, step(rule, before, s));
    let expected = (0..rule.k).filter(expected).collect();
    let told = (
        set & rule.finals != 0,
        lost,
        expected,
        before & rule.finals != 0,
    );
    (told, set)
}

#[test]
fn as_plain_runs_and_a_filled_board() {
    let mut r = Random(88172645463325252);
    let (mut yes, mut no, mut lost_later) = (0, 0, 0);
    for _ in 0..1000 {
        let rule = r.rule();
        let mut follower = fresh(&rule);
        let mut set = rule.initials;
        let (mut judge, chunks, mut last) = (Judge::new(), 1 + r.below(6), false);
        let on_board = judge.install(&rule).is_ok() && judge.open(chunks).is_ok();
        for place in 0..chunks {
            let byte = |r: &mut Random| [255, r.below(rule.k.into()) as u8][r.below(6).min(1)];
            let chunk: Vec<u8> = (0..r.below(8)).map(|_| byte(&mut r)).collect();
            let (due, after) = due(&rule, set, &chunk);
            let told = told(follower.follow(&chunk).unwrap());
            assert_eq!(told, due, "{rule:?} {chunk:?}");
            lost_later += usize::from(place > 0 && told.1 > Some(0));
            (set, last) = (after, told.0);
            if on_board {
                let _looked = judge.deliver(place, 0, &chunk).unwrap();
            }
        }
        if on_board {
            assert_eq!(judge.verdict().unwrap().is_yes(), last);
            *(if last { &mut yes } else { &mut no }) += 1;
        }
    }
    assert!(
        yes > 10 && no > 10 && lost_later > 10,
        "{yes} {no} {lost_later}"
    );
}
