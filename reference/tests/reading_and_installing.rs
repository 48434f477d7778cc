//! reading a file without installing it, and installing a checked rule.

use reference::automata::{automaton, blank, exactly, file};
use reference::checked::{read, CheckedRule, BYTES};
use reference::faults::{faulty, faulty_value};
use reference::judge::Answer::{self, *};
use reference::judge::{Call, Judge, Work};
use reference::random::Random;
use reference::rule::{Automaton, Rule};

/// Rule A of the paper: it accepts the texts that end in 0 1.
fn a() -> Automaton {
    let mut a = blank(3, 2);
    (a.initial, a.finals) = (1, 4);
    a.targets = vec![vec![3, 1], vec![0, 4], vec![0, 0]];
    a
}

/// Rule A as a value, changed.
fn a_with(change: impl Fn(&mut CheckedRule)) -> CheckedRule {
    let mut value = CheckedRule::of(&a());
    change(&mut value);
    value
}

fn installed(value: &CheckedRule) -> Answer {
    Judge::default().call(&Call::Install(Box::new(value.clone())))
}

#[test]
fn the_bytes_of_a_value() {
    let bytes = CheckedRule::of(&a()).bytes();
    assert_eq!(bytes.len(), BYTES);
    assert_eq!(bytes[..10], [3, 2, 1, 0, 0, 0, 4, 0, 0, 0]);
    let cells: Vec<(usize, u8)> = (10..BYTES).filter(|&at| bytes[at] != 0).map(|at| (at, bytes[at])).collect();
    // states 0 and 1, symbols 0 and 1: cells 0, 1 and 17
    assert_eq!(cells, [(10, 3), (14, 1), (10 + 4 * 17, 4)]);
    let last = CheckedRule::from_bytes(&(0..BYTES).map(|at| (at == BYTES - 1) as u8).collect::<Vec<u8>>()).unwrap();
    assert_eq!((last.n, last.targets[31][15], last.targets[31][14]), (0, 1 << 24, 0));
    for length in [0, 30, BYTES - 1, BYTES + 1, 2 * BYTES] {
        assert_eq!(CheckedRule::from_bytes(&vec![0; length]), None);
    }
}

#[test]
fn a_file_is_read_and_a_value_kept_whole() {
    let mut r = Random::new(7, 7);
    for _ in 0..500 {
        let a = automaton(&mut r);
        let value = CheckedRule::of(&a);
        assert_eq!(read(&file(&a)), Ok(value.clone()));
        assert_eq!(value.automaton(), Ok(a));
        assert_eq!(CheckedRule::from_bytes(&value.bytes()), Some(value));
    }
}

#[test]
fn reading_gives_1_to_8_as_a_load_does_and_no_9() {
    let mut r = Random::new(8, 8);
    for number in 1..=8 {
        for _ in 0..20 {
            let file = faulty(&mut r, &[number]);
            assert_eq!((read(&file), Rule::load(&file).err()), (Err(number), Some(number)));
        }
    }
    let many = file(&exactly(&mut r, 513));
    assert_eq!((read(&many).is_ok(), Rule::load(&many).err()), (true, Some(9)));
}

#[test]
fn a_load_is_reading_and_installing() {
    let mut r = Random::new(5, 5);
    for _ in 0..300 {
        let a = automaton(&mut r);
        let (loaded, installed) = (Rule::load(&file(&a)), Rule::install(&CheckedRule::of(&a)));
        assert_eq!(loaded.map(|rule| rule.print()), installed.map(|rule| rule.print()));
    }
    assert_eq!(installed(&CheckedRule::of(&a())), Installed(5, 3));
}

#[test]
fn refused_3_and_4() {
    for n in [0, 33, 40, 64, 255] {
        assert_eq!(installed(&a_with(|value| value.n = n)), Refused(3));
        assert_eq!(installed(&a_with(|value| (value.n, value.k) = (n, 0))), Refused(3));
    }
    for k in [0, 17, 255] {
        assert_eq!(installed(&a_with(|value| value.k = k)), Refused(4));
        assert_eq!(installed(&a_with(|value| (value.k, value.initial) = (k, 8))), Refused(4));
    }
    assert_eq!(installed(&a_with(|value| value.n = 32)), Installed(34, 4));
    assert_eq!(installed(&a_with(|value| value.k = 16)), Installed(5, 3));
}

#[test]
fn refused_6() {
    for bit in [3, 4, 31] {
        assert_eq!(installed(&a_with(|value| value.initial |= 1 << bit)), Refused(6));
        assert_eq!(installed(&a_with(|value| value.finals |= 1 << bit)), Refused(6));
        assert_eq!(installed(&a_with(|value| (value.finals, value.targets[31][15]) = (1 << bit, 1))), Refused(6));
    }
    assert!(matches!(installed(&a_with(|value| (value.initial, value.finals) = (7, 7))), Installed(5, _)));
}

#[test]
fn refused_8() {
    // a bit at n or above
    for (q, s, bit) in [(0, 0, 3), (2, 1, 3), (0, 1, 31), (2, 0, 31)] {
        assert_eq!(installed(&a_with(|value| value.targets[q][s] |= 1 << bit)), Refused(8));
    }
    // masks kept for a state or a symbol outside
    for (q, s) in [(3, 0), (3, 1), (31, 0), (0, 2), (2, 15), (3, 2), (31, 15)] {
        assert_eq!(installed(&a_with(|value| value.targets[q][s] = 1)), Refused(8));
    }
    // one state or one symbol less than there are arcs for
    assert_eq!(installed(&a_with(|value| (value.n, value.finals) = (2, 2))), Refused(8));
    assert_eq!(installed(&a_with(|value| value.k = 1)), Refused(8));
}

/// With 32 states and 16 symbols no bit and no mask is outside.
#[test]
fn the_largest_value() {
    let full = CheckedRule { n: 32, k: 16, initial: u32::MAX, finals: u32::MAX, targets: [[u32::MAX; 16]; 32] };
    assert_eq!(installed(&full), Installed(33, 1));
    assert_eq!(installed(&CheckedRule { n: 40, ..full.clone() }), Refused(3));
    assert_eq!(installed(&CheckedRule { n: 31, ..full.clone() }), Refused(6));
    assert_eq!(installed(&CheckedRule { k: 15, ..full }), Refused(8));
}

#[test]
fn refused_9() {
    let mut r = Random::new(9, 9);
    for _ in 0..5 {
        let (fits, exceeds) = (exactly(&mut r, 512), exactly(&mut r, 513));
        assert!(matches!(installed(&CheckedRule::of(&fits)), Installed(512, _)));
        assert_eq!(installed(&CheckedRule::of(&exceeds)), Refused(9));
    }
}

#[test]
fn of_two_faults_the_lower_number_is_due() {
    let mut r = Random::new(1, 2);
    for low in [3, 4, 6, 8, 9] {
        for high in [3, 4, 6, 8, 9].into_iter().filter(|&high| low <= high) {
            for _ in 0..20 {
                let value = faulty_value(&mut r, &[low, high]);
                assert_eq!(installed(&value), Refused(low), "{low} {high} {value:?}");
            }
        }
    }
}

/// An accepted installation removes the board, a refused one leaves the rule and the board.
#[test]
fn an_installation_takes_the_part_of_a_load() {
    let mut judge = Judge::default();
    let mut calls = |calls: Vec<Call>| calls.iter().map(|call| judge.call(call)).collect::<Vec<Answer>>();
    let install = |value: CheckedRule| Call::Install(Box::new(value));
    let (good, bad) = (a_with(|_| ()), a_with(|value| value.targets[3][0] = 1));
    assert_eq!(
        calls(vec![install(bad.clone()), Call::Open(1), install(good.clone()), Call::Open(1), Call::Deliver(0, vec![0, 1])]),
        [Refused(8), Refused(20), Installed(5, 3), Accepted, Delivered(2)]
    );
    let yes = Yes(Work { count: 2, bytes: 2, quotient: 1, remainder: 0 });
    assert_eq!(
        calls(vec![Call::Verdict, install(bad), Call::Verdict, install(good), Call::Verdict, Call::Open(1)]),
        [yes.clone(), Refused(8), yes, Installed(5, 3), Refused(21), Accepted]
    );
}
