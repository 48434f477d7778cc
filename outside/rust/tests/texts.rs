//! Made texts: their symbols, refusals with the buffer as it was, and a rule that takes them.
use bellbadger::texts::make_text;
use bellbadger::{CheckedRule, Judge, Verdict};

fn made(k: usize, seed: u64, length: usize) -> Vec<u8> {
    let mut text = vec![0xEE; length];
    assert!(make_text(k, seed, &mut text).is_ok());
    text
}

/// Computed by another program from the words of the request.
#[test]
fn symbols() {
    assert_eq!(made(10, 2, 6), [2, 9, 6, 8, 8, 9]);
    assert_eq!(made(3, 7, 6), [0, 0, 0, 1, 1, 1]);
    let all_bits = [0, 15, 0, 11, 4, 4, 1, 6, 4, 0, 15, 0, 2, 11, 5, 6];
    assert_eq!(made(16, u64::MAX, 16), all_bits);
    assert_eq!(made(1, 5, 3), [0, 0, 0]);
    assert_eq!(made(5, 1, 0), []);
}

/// A shorter text is the beginning of a longer one.
#[test]
fn beginnings() {
    let long = made(13, 99, 4000);
    for length in [0, 1, 63, 64, 1000] {
        assert_eq!(made(13, 99, length), long[..length]);
    }
}

#[test]
fn refusals() {
    // 257, 272, 2^32 + 1: 1 and 16 where k is cut to fewer bits
    for k in (0..=272).chain([65537, (1 << 32) + 1, usize::MAX]) {
        for seed in [0, 1, u64::MAX] {
            let number = if !(1..=16).contains(&k) {
                4
            } else if seed == 0 {
                41
            } else {
                continue;
            };
            let mut text = [0xEE; 100];
            assert_eq!(make_text(k, seed, &mut text).unwrap_err().number(), number);
            assert_eq!(text, [0xEE; 100]);
        }
    }
}

/// A rule with k symbols that accepts every text takes the text as a chunk.
#[test]
fn a_rule_takes_them() {
    for k in 1..=16_u8 {
        let mut targets = [0; 512];
        targets[..usize::from(k)].fill(1);
        let (n, initials, finals) = (1, 1, 1);
        let rule = CheckedRule {
            n,
            k,
            initials,
            finals,
            targets,
        };
        let mut judge = Judge::new();
        assert!(judge.install(&rule).is_ok() && judge.open(1).is_ok());
        assert!(judge
            .deliver(0, 0, &made(usize::from(k), 41, 65536))
            .is_ok());
        let verdict = judge.verdict().expect("a board").verdict;
        assert_eq!(verdict, Verdict::Yes(65536));
    }
}
