//! Where a trace is lost, through the wrapper: worked by hand, refusals in their order, and small random
//! boards beside the words: all texts that might follow are tried.
use bellbadger::losses::Diagnosis::{self, Lost, Open};
use bellbadger::{CheckedRule, Judge, Refused};

/// A rule over 0 and 1, with the targets of each state by both.
fn rule(initials: u32, finals: u32, rows: &[[u32; 2]]) -> CheckedRule {
    let mut targets = [0; 512];
    for (state, row) in rows.iter().enumerate() {
        targets[16 * state..16 * state + 2].copy_from_slice(row);
    }
    CheckedRule {
        n: rows.len() as u8,
        k: 2,
        initials,
        finals,
        targets,
    }
}

/// 0, 0 1 0, 0 1 0 1 0 and so on; what comes out of order leads to state 2 and stays there.
fn in_turn() -> CheckedRule {
    rule(1, 2, &[[2, 4], [4, 1], [4, 4]])
}

fn opened(rule: &CheckedRule, places: usize) -> Judge {
    let mut judge = Judge::new();
    let _loaded = judge.install(rule).expect("the rule is installed");
    judge.open(places).expect("a board");
    judge
}

fn deliver(judge: &mut Judge, place: usize, revision: u32, chunk: &[u8]) {
    let _looked = judge.deliver(place, revision, chunk).expect("it is taken");
}

fn number<T: std::fmt::Debug>(answer: Result<T, Refused>) -> u8 {
    answer.unwrap_err().number()
}

#[test]
fn worked_by_hand() {
    let mut judge = opened(&in_turn(), 3);
    assert_eq!(judge.diagnose(), Ok(Open { places: 0 }));
    deliver(&mut judge, 1, 0, &[1, 1]);
    assert_eq!(judge.diagnose(), Ok(Open { places: 0 }));
    deliver(&mut judge, 0, 0, &[0]);
    assert_eq!(judge.diagnose(), Ok(Lost { place: 1 }));
    for (chunk, due) in [
        (&[1, 1][..], Some(2)),
        (&[255, 1, 255, 255, 1, 255], Some(5)),
        (&[0, 255], Some(1)),
        (&[1, 255, 0], None),
        (&[255, 255], None),
        (&[], None),
    ] {
        assert_eq!(judge.locate(1, chunk), Ok(due), "{chunk:?}");
    }
    assert_eq!(judge.locate(2, &[0]), Ok(Some(0)));
    deliver(&mut judge, 2, 0, &[0]);
    assert_eq!(judge.diagnose(), Ok(Lost { place: 1 }));
    assert!(!judge.verdict().expect("a verdict").is_yes());
    deliver(&mut judge, 1, 1, &[1]);
    assert_eq!(judge.diagnose(), Ok(Open { places: 3 }));
    assert!(judge.verdict().expect("a verdict").is_yes());
}

#[test]
fn a_rule_that_accepts_nothing() {
    let mut judge = opened(&rule(1, 0, &[[1, 1]]), 2);
    assert_eq!(judge.diagnose(), Ok(Open { places: 0 }));
    assert_eq!(judge.locate(0, &[0]), Ok(Some(0)));
    deliver(&mut judge, 0, 0, &[]);
    assert_eq!(judge.diagnose(), Ok(Lost { place: 0 }));
}

#[test]
fn refusals_in_their_order() {
    let mut judge = Judge::new();
    let long = [2; 65_537];
    assert_eq!(number(judge.diagnose()), 21);
    assert_eq!(number(judge.locate(2, &long)), 21);
    let _loaded = judge.install(&in_turn()).expect("the rule is installed");
    assert_eq!(number(judge.diagnose()), 21);
    judge.open(2).expect("a board");
    assert_eq!(number(judge.locate(2, &long)), 11);
    assert_eq!(number(judge.locate(usize::MAX, &[])), 11);
    assert_eq!(number(judge.locate(1, &long)), 12);
    assert_eq!(number(judge.locate(1, &long[1..])), 13);
    let missing = judge.locate(1, &[255]).unwrap_err();
    assert_eq!(
        missing.to_string(),
        "refused 23: the place, or to locate a loss one before it, has no chunk"
    );
    assert_eq!(judge.locate(0, &[255; 65_536]), Ok(None));
}

/// Whether a text can follow so that the rule accepts both: one that is shorter than there are states.
fn continued(rule: &CheckedRule, text: &[u8]) -> bool {
    let step = |set: u32, symbol: u8| {
        (0..usize::from(rule.n))
            .filter(|q| set >> q & 1 == 1)
            .fold(0, |next, q| {
                next | rule.targets[16 * q + usize::from(symbol)]
            })
    };
    let after = |set: u32, text: &[u8]| {
        let events = text.iter().filter(|&&byte| byte != 255);
        events.fold(set, |set, &symbol| step(set, symbol))
    };
    let mut rests: Vec<Vec<u8>> = vec![vec![]];
    for _ in 0..rule.n {
        let accepts = |rest: &Vec<u8>| after(after(rule.initials, text), rest) & rule.finals != 0;
        if rests.iter().any(accepts) {
            return true;
        }
        let longer = |rest: &Vec<u8>| [0, 1].map(|symbol| [rest.as_slice(), &[symbol]].concat());
        rests = rests.iter().flat_map(longer).collect();
    }
    false
}

#[test]
fn beside_the_words() {
    let mut seed = 88_172_645_463_325_252_u64;
    let mut below = |n: u64| {
        seed ^= seed << 13;
        seed ^= seed >> 7;
        seed ^= seed << 17;
        ((seed >> 33) % n) as u32
    };
    let mut seen = [0; 4];
    for _ in 0..2000 {
        let n = 1 + below(3);
        let mut set = || below(1 << n) & (below(1 << n) | below(1 << n));
        let rows: Vec<[u32; 2]> = (0..n).map(|_| [set(), set()]).collect();
        let (initials, finals) = (set() | 1, set());
        let some = rule(initials, finals, &rows);
        let places = 1 + below(3) as usize;
        let mut judge = opened(&some, places);
        let chunks: Vec<Option<Vec<u8>>> = (0..places)
            .map(|_| {
                let bytes = (0..below(4)).map(|_| [0, 1, 255][below(3) as usize]);
                let chunk = bytes.collect();
                (below(6) != 0).then_some(chunk)
            })
            .collect();
        for (place, chunk) in chunks.iter().enumerate().rev() {
            chunk
                .iter()
                .for_each(|chunk| deliver(&mut judge, place, 7, chunk));
        }
        let filled: Vec<&Vec<u8>> = chunks.iter().map_while(Option::as_ref).collect();
        let text = |places: usize| {
            filled[..places]
                .iter()
                .copied()
                .flatten()
                .copied()
                .collect()
        };
        let texts: Vec<Vec<u8>> = (0..=filled.len()).map(text).collect();
        let lost = (0..filled.len()).find(|&place| !continued(&some, &texts[place + 1]));
        let due = match lost {
            Some(place) => Lost { place },
            None => Open {
                places: filled.len(),
            },
        };
        assert_eq!(judge.diagnose(), Ok(due), "{some:?} {chunks:?}");
        seen[usize::from(matches!(due, Diagnosis::Open { .. }))] += 1;
        for place in 0..filled.len() {
            let with = |bytes: usize| [&texts[place][..], &filled[place][..bytes]].concat();
            let due = (0..=filled[place].len()).find(|&bytes| !continued(&some, &with(bytes)));
            let said = judge.locate(place, filled[place]);
            assert_eq!(said, Ok(due), "{some:?} {chunks:?}");
            seen[2 + usize::from(due.is_some())] += 1;
        }
    }
    assert!(seen.iter().all(|&times| times > 200), "{seen:?}");
}
