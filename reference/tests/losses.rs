//! Where a trace is lost.

use reference::automata::{automaton, blank};
use reference::checked::CheckedRule;
use reference::judge::{text, Answer, Call, Judge};
use reference::losses::Diagnosis::{Lost, Open};
use reference::losses::{continued, diagnose, locate};
use reference::random::Random;
use reference::rule::Automaton;

/// Rule A of the paper: it accepts the texts that end in 0 1.
fn a() -> Automaton {
    let mut a = blank(3, 2);
    (a.initial, a.finals) = (1, 4);
    a.targets = vec![vec![3, 1], vec![0, 4], vec![0, 0]];
    a
}

/// 0, 0 1 0, 0 1 0 1 0 and so on; what comes out of turn leads to state 2 and stays there.
fn trap() -> Automaton {
    let mut a = blank(3, 2);
    (a.initial, a.finals) = (1, 2);
    a.targets = vec![vec![2, 4], vec![4, 1], vec![4, 4]];
    a
}

fn opened(a: &Automaton, places: u64) -> Judge {
    let mut judge = Judge::default();
    assert!(matches!(judge.call(&Call::Install(Box::new(CheckedRule::of(a)))), Answer::Installed(..)));
    assert_eq!(judge.call(&Call::Open(places)), Answer::Accepted);
    judge
}

fn deliver(judge: &mut Judge, place: u64, revision: u32, chunk: &[u8]) {
    assert!(matches!(judge.call(&Call::Deliver(place, revision, chunk.to_vec())), Answer::Delivered(_)));
}

#[test]
fn worked_by_hand() {
    let mut judge = opened(&trap(), 3);
    deliver(&mut judge, 1, 0, &[1, 1]);
    assert_eq!(diagnose(&judge), Ok(Open(0)));
    deliver(&mut judge, 0, 0, &[0]);
    assert_eq!(diagnose(&judge), Ok(Lost(1)));
    assert_eq!(locate(&judge, 1, &[1, 1]), Ok(Some(2)));
    assert_eq!(locate(&judge, 1, &[255, 1, 255, 255, 1, 255]), Ok(Some(5)));
    assert_eq!(locate(&judge, 1, &[1, 255, 0]), Ok(None));
    assert_eq!(locate(&judge, 2, &[0]), Ok(Some(0)));
    deliver(&mut judge, 2, 0, &[0]);
    deliver(&mut judge, 1, 1, &[1]);
    assert_eq!(diagnose(&judge), Ok(Open(3)));
    let mut judge = opened(&a(), 2);
    deliver(&mut judge, 0, 0, &[1, 1]);
    assert_eq!((diagnose(&judge), locate(&judge, 1, &[1, 0, 0])), (Ok(Open(1)), Ok(None)));
}

#[test]
fn a_rule_that_accepts_nothing() {
    let mut judge = opened(&Automaton { finals: 0, ..trap() }, 1);
    assert_eq!((diagnose(&judge), locate(&judge, 0, &[])), (Ok(Open(0)), Ok(Some(0))));
    deliver(&mut judge, 0, 0, &[]);
    assert_eq!(diagnose(&judge), Ok(Lost(0)));
}

#[test]
fn refusals_in_order() {
    let long = [2; 65_537];
    assert_eq!((diagnose(&Judge::default()), locate(&Judge::default(), 2, &long)), (Err(21), Err(21)));
    let judge = opened(&trap(), 2);
    assert_eq!(locate(&judge, 2, &long), Err(11));
    assert_eq!(locate(&judge, 1, &long), Err(12));
    assert_eq!(locate(&judge, 1, &long[1..]), Err(13));
    assert_eq!(locate(&judge, 1, &[255]), Err(23));
    assert_eq!(locate(&judge, 0, &[255]), Ok(None));
}

/// A text that follows need not be longer than one less than there are states.
#[test]
fn all_texts_that_might_follow() {
    let mut r = Random::new(15, 0);
    let mut hopes = [0, 0];
    for _ in 0..3000 {
        let (n, k) = (r.range(1, 4), r.range(1, 2));
        let set = |r: &mut Random| r.below(1 << n) as u32;
        let mut a = blank(n, k);
        (a.initial, a.finals) = (set(&mut r), set(&mut r) & set(&mut r));
        for q in 0..n {
            for s in 0..k {
                a.targets[q][s] = set(&mut r) & set(&mut r);
            }
        }
        let begun: Vec<u8> = (0..r.below(4)).map(|_| r.below(k) as u8).collect();
        let mut texts = vec![begun.clone()];
        let mut follows = false;
        for _ in 0..n {
            follows |= texts.iter().any(|text| a.accepts_from(a.initial, text));
            let longer = |text: &Vec<u8>| (0..k as u8).map(|s| [text.as_slice(), &[s]].concat()).collect::<Vec<_>>();
            texts = texts.iter().flat_map(longer).collect();
        }
        assert_eq!(continued(&a, &begun), follows, "{begun:?} {a:?}");
        hopes[follows as usize] += 1;
    }
    assert!(hopes.iter().all(|&times| times > 300), "{hopes:?}");
}

/// What stands behind the place at which a trace is lost makes no yes of it; and each no is one that is lost,
/// or one that stopped too early. The byte is in the chunk of that place.
#[test]
fn a_lost_trace_stays_lost() {
    let mut r = Random::new(16, 0);
    let mut seen = [0, 0, 0];
    for _ in 0..1000 {
        let a = automaton(&mut r);
        let mut judge = Judge::default();
        if judge.call(&Call::Install(Box::new(CheckedRule::of(&a)))) == Answer::Refused(9) { continue; }
        let places = r.range(1, 4) as u64;
        judge.call(&Call::Open(places));
        let (mut last, mut before) = (Open(0), Vec::new());
        for place in 0..places {
            let chunk: Vec<u8> = (0..r.below(6)).map(|_| if r.one_in(5) { 255 } else { r.below(a.k) as u8 }).collect();
            let found = locate(&judge, place, &chunk).unwrap();
            let stuck = |&bytes: &usize| !continued(&a, &[before.clone(), text(&chunk[..bytes])].concat());
            assert_eq!(found, (0..=chunk.len()).find(stuck));
            before.extend(text(&chunk));
            deliver(&mut judge, place, 0, &chunk);
            let now = diagnose(&judge).unwrap();
            match last {
                Lost(_) => assert_eq!((now, found), (last, Some(0))),
                Open(before) => {
                    assert_eq!(before as u64, place);
                    assert_eq!(now, if found.is_some() { Lost(before) } else { Open(before + 1) });
                    if let Some(bytes) = found {
                        assert!(bytes <= chunk.len() && (bytes == 0 || chunk[bytes - 1] != 255));
                        assert!(place == 0 || text(&chunk[..bytes]).len() > 0);
                    }
                }
            }
            last = now;
        }
        let kind = match (last, judge.call(&Call::Verdict)) {
            (Lost(_), Answer::No(_)) => 0,
            (Open(_), Answer::No(_)) => 1,
            (Open(_), Answer::Yes(_)) => 2,
            other => panic!("{other:?} {a:?}"),
        };
        seen[kind] += 1;
    }
    assert!(seen.iter().all(|&times| times > 50), "{seen:?}");
}
