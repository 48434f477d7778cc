//! Reading a rule file without a judge, and installing a rule by value.
use bellbadger::{read, replay, CheckedRule, Judge, Loaded, Looked, Refused, Verdict};
use std::fmt::Debug;

const A: [u8; 30] = [
    0x03, 0x02, 0x01, 0, 0, 0, 0x04, 0, 0, 0, 0x16, 0, 0x06, 0, 0x1C, 0, 0x02, 0, 0x1E, 0, 0, 0, 0,
    0, 0, 1, 1, 0, 1, 2,
];

/// The number of a refusal.
fn number<T: Debug>(answer: Result<T, Refused>) -> u8 {
    answer.unwrap_err().number()
}

/// Rule A by value, changed.
fn changed(change: impl Fn(&mut CheckedRule)) -> CheckedRule {
    let mut rule = read(&A).expect("rule A is read");
    change(&mut rule);
    rule
}

fn installed(rule: &CheckedRule) -> Result<Loaded, Refused> {
    Judge::new().install(rule)
}

#[test]
fn what_is_read() {
    let mut targets = [0; 512];
    (targets[0], targets[1], targets[17]) = (3, 1, 4);
    let (n, k, initials, finals) = (3, 2, 1, 4);
    let rule = CheckedRule {
        n,
        k,
        initials,
        finals,
        targets,
    };
    assert_eq!(read(&A), Ok(rule));
    assert_eq!((rule.target_mask(1, 1), rule.target_mask(1, 0)), (4, 0));
    assert_eq!((rule.target_mask(32, 0), rule.target_mask(0, 16)), (0, 0));
    let shown = "CheckedRule { states: 3, symbols: 2, initial: 1, final: 1, arcs: 4, .. }";
    assert_eq!(format!("{rule:?}"), shown);
}

#[test]
fn files_that_are_refused() {
    for (at, byte, refused) in [
        (0, 0, 3),
        (0, 33, 3),
        (1, 17, 4),
        (6, 8, 6),
        (10, 24, 7),
        (28, 2, 8),
        (29, 3, 8),
    ] {
        let mut file = A;
        file[at] = byte;
        assert_eq!(number(read(&file)), refused);
        assert_eq!(number(Judge::new().load(&file)), refused);
    }
    for (length, refused) in [(0, 1), (9, 1), (10, 5), (21, 5), (22, 7), (29, 7)] {
        assert_eq!(number(read(&A[..length])), refused);
    }
    assert_eq!(number(read(&[0; 32907])), 2);
}

#[test]
fn a_load_is_reading_and_installing() {
    assert_eq!(installed(&changed(|_| ())), Judge::new().load(&A));
    assert_eq!(
        installed(&changed(|_| ())),
        Ok(Loaded { sets: 5, starts: 3 })
    );
}

#[test]
fn values_that_are_refused() {
    for n in [0, 33, 40, 255] {
        assert_eq!(
            number(installed(&changed(|rule| (rule.n, rule.k) = (n, 0)))),
            3
        );
    }
    for k in [0, 17, 255] {
        assert_eq!(
            number(installed(&changed(|rule| (rule.k, rule.initials) = (k, 8)))),
            4
        );
    }
    assert_eq!(number(installed(&changed(|rule| rule.initials = 8))), 6);
    assert_eq!(number(installed(&changed(|rule| rule.finals = 1 << 31))), 6);
    // a target, a symbol and a state that does not exist, and the last mask of all
    for (cell, mask) in [(17, 8), (2, 1), (48, 1), (511, 1)] {
        let refused = installed(&changed(|rule| rule.targets[cell] = mask)).unwrap_err();
        assert_eq!(refused.number(), 8);
        assert!(refused
            .to_string()
            .contains("a state, a symbol or a target"));
    }
    // the tenth symbol from the end is 1
    let mut many = CheckedRule {
        n: 11,
        k: 2,
        initials: 1,
        finals: 1 << 10,
        targets: [0; 512],
    };
    (many.targets[0], many.targets[1]) = (1, 3);
    for q in 1..10 {
        (many.targets[16 * q], many.targets[16 * q + 1]) = (1 << (q + 1), 1 << (q + 1));
    }
    assert_eq!(number(installed(&many)), 9);
}

#[test]
fn nothing_is_outside_32_states_and_16_symbols() {
    let full = CheckedRule {
        n: 32,
        k: 16,
        initials: u32::MAX,
        finals: u32::MAX,
        targets: [u32::MAX; 512],
    };
    assert_eq!(
        installed(&full),
        Ok(Loaded {
            sets: 33,
            starts: 1
        })
    );
    assert_eq!(number(installed(&CheckedRule { k: 15, ..full })), 8);
    assert_eq!(number(installed(&CheckedRule { n: 31, ..full })), 6);
}

/// A refused installation leaves the rule and the board, an accepted one removes the board.
#[test]
fn an_installation_takes_the_part_of_a_load() {
    let (good, bad) = (changed(|_| ()), changed(|rule| rule.targets[511] = 1));
    let mut judge = Judge::new();
    assert_eq!(number(judge.install(&bad)), 8);
    assert_eq!(number(judge.open(1)), 20);
    assert!(
        judge.install(&good).is_ok()
            && judge.open(1).is_ok()
            && judge.deliver(0, 0, &[0, 1]).is_ok()
    );
    assert_eq!(number(judge.install(&bad)), 8);
    assert_eq!(
        judge.verdict().map(|report| report.verdict),
        Ok(Verdict::Yes(2))
    );
    assert!(judge.install(&good).is_ok());
    assert_eq!(number(judge.verdict()), 21);
}

/// By 0 from 0 to 1, which is final and has no arcs; by 1 from 0 to 2; 2 and 3 lead only to each other.
fn astray(initials: u32, finals: u32) -> CheckedRule {
    let (n, k) = (4, 2);
    let mut targets = [0; 512];
    (targets[0], targets[1]) = (2, 4);
    (targets[32], targets[33], targets[48]) = (8, 4, 4);
    CheckedRule {
        n,
        k,
        initials,
        finals,
        targets,
    }
}

/// The verdict on a rule and two chunks, the second delivered first.
fn judged(rule: &CheckedRule, chunks: [&[u8]; 2]) -> Verdict {
    let mut judge = Judge::new();
    assert!(judge.install(rule).is_ok() && judge.open(2).is_ok());
    assert!(judge.deliver(1, 0, chunks[1]).is_ok() && judge.deliver(0, 0, chunks[0]).is_ok());
    judge.verdict().expect("a verdict").verdict
}

/// They are no starts; an initial state among them is not run, and the join passes over them.
#[test]
fn states_that_lead_nowhere() {
    assert_eq!(installed(&astray(1, 2)), Ok(Loaded { sets: 4, starts: 2 }));
    assert_eq!(judged(&astray(1, 2), [&[], &[0]]), Verdict::Yes(1));
    assert_eq!(judged(&astray(1, 2), [&[1, 1], &[0]]), Verdict::No(3));
    assert_eq!(judged(&astray(4, 2), [&[0, 1], &[]]), Verdict::No(0));
    assert_eq!(judged(&astray(13, 2), [&[0], &[]]), Verdict::Yes(1));
}

/// No start, nothing is run, and the verdict is no.
#[test]
fn no_final_state() {
    let mut judge = Judge::new();
    assert_eq!(
        judge.install(&astray(15, 0)),
        Ok(Loaded { sets: 4, starts: 0 })
    );
    assert_eq!(judge.open(1), Ok(()));
    assert_eq!(number(judge.deliver(0, 0, &[0, 2])), 13);
    assert_eq!(judge.deliver(0, 0, &[0, 1]), Ok(Looked { bytes: 0 }));
    let report = judge.verdict().expect("a verdict");
    assert_eq!((report.verdict, report.bytes), (Verdict::No(0), 2));
}

/// A rule by value as a line: n, k, then every mask in four bytes, the lowest first.
#[test]
fn recorded_installations() {
    let rule = changed(|_| ());
    let masks = [rule.initials, rule.finals].into_iter().chain(rule.targets);
    let bytes: Vec<u8> = [rule.n, rule.k]
        .into_iter()
        .chain(masks.flat_map(u32::to_le_bytes))
        .collect();
    let text = |bytes: &[u8]| {
        let hex: String = bytes.iter().map(|byte| format!("{byte:02x}")).collect();
        format!("install {hex}\nopen 1\ndeliver 0 0 0001\n")
    };
    let report = replay(text(&bytes).as_bytes()).expect("a verdict");
    assert_eq!((bytes.len(), report.verdict), (2058, Verdict::Yes(2)));
    assert!(replay(text(&bytes[..2057]).as_bytes()).is_err());
}
