//! A judge as bytes, and back.

use reference::automata::blank;
use reference::checked::CheckedRule;
use reference::judge::{Call, Judge};
use reference::saved::{numbers, restore, save, SIZE};

/// Rule A of the paper on a board of two places, with a chunk at the second.
fn judge() -> Judge {
    let mut a = blank(3, 2);
    (a.initial, a.finals) = (1, 4);
    a.targets = vec![vec![3, 1], vec![0, 4], vec![0, 0]];
    let mut judge = Judge::default();
    for call in [Call::Install(Box::new(CheckedRule::of(&a))), Call::Open(2), Call::Deliver(1, 6, vec![0, 255, 1])] {
        judge.call(&call);
    }
    judge
}

#[test]
fn worked_by_hand() {
    let fresh = save(&numbers(&Judge::default()));
    assert_eq!((fresh.len(), &fresh[..8]), (SIZE, &b"BBJ\x01\xbe\x6c\x00\x00"[..]));
    assert!(fresh[8..SIZE - 8].iter().all(|&x| x == 0));
    assert_eq!(fresh[SIZE - 8..], [60, 45, 45, 236, 48, 133, 245, 115]);
    let bytes = save(&numbers(&judge()));
    // n, k, M; five sets; initial and final states; delegates
    assert_eq!(bytes[8..24], [3, 2, 3, 5, 0, 1, 0, 0, 0, 4, 0, 0, 0, 0, 1, 2]);
    // two places, of which the second is filled; its count, length, and one more than its revision
    assert_eq!(bytes[18549..18552], [2, 0, 1]);
    assert_eq!((bytes[18618], bytes[18874], bytes[19134]), (2, 2, 7));
    // the end sets of the states 0 and 1 at the second place
    assert_eq!(bytes[19638 + 128..19638 + 136], [5, 0, 0, 0, 0, 0, 0, 0]);
}

#[test]
fn there_and_back() {
    for numbers in [numbers(&Judge::default()), numbers(&judge())] {
        let saved = save(&numbers);
        assert_eq!(restore(&saved), Ok(numbers));
        assert_eq!(restore(&saved[1..]), Err(46));
        assert_eq!(restore(&[&saved[..], &[0]].concat()), Err(46));
        for at in (0..SIZE).step_by(37) {
            let mut altered = saved.clone();
            altered[at] ^= 1;
            assert_eq!(restore(&altered), Err(46));
        }
    }
}
