//! a later recording supersedes.

use reference::automata::{blank, file};
use reference::checked::CheckedRule;
use reference::judge::Answer::{self, *};
use reference::judge::{Board, Call, Judge, Place, Work};
use reference::random::Random;
use reference::rule::Automaton;

/// Rule A of the paper: it accepts the texts that end in 0 1.
fn a() -> Automaton {
    let mut a = blank(3, 2);
    (a.initial, a.finals) = (1, 4);
    a.targets = vec![vec![3, 1], vec![0, 4], vec![0, 0]];
    a
}

/// A judge with rule A and a board of so many places.
fn opened(places: u64) -> Judge {
    let mut judge = Judge::default();
    assert_eq!(judge.call(&Call::Load(file(&a()))), Installed(5, 3));
    assert_eq!(judge.call(&Call::Open(places)), Accepted);
    judge
}

fn deliver(judge: &mut Judge, place: u64, revision: u32, chunk: &[u8]) -> Answer {
    judge.call(&Call::Deliver(place, revision, chunk.to_vec()))
}

#[test]
fn a_greater_revision_replaces_what_stands() {
    let mut judge = opened(1);
    assert_eq!(deliver(&mut judge, 0, 5, &[0]), Delivered(1));
    assert_eq!(judge.call(&Call::Verdict), No(Work::new(1, 1)));
    assert_eq!(deliver(&mut judge, 0, 6, &[0, 1]), Delivered(2));
    assert_eq!(judge.call(&Call::Verdict), Yes(Work::new(2, 2)));
    for revision in [0, 5, 6] {
        assert_eq!(deliver(&mut judge, 0, revision, &[0]), Refused(22));
    }
    assert_eq!(judge.call(&Call::Verdict), Yes(Work::new(2, 2)));
    assert_eq!(deliver(&mut judge, 0, u32::MAX, &[]), Delivered(0));
    assert_eq!(judge.call(&Call::Verdict), No(Work::new(0, 0)));
    // no revision is greater than that
    assert_eq!(deliver(&mut judge, 0, u32::MAX, &[0, 1]), Refused(22));
    assert_eq!(judge.call(&Call::Withdraw(0)), Accepted);
    assert_eq!(deliver(&mut judge, 0, u32::MAX, &[0, 1]), Refused(22));
}

#[test]
fn a_withdrawal_does_not_forget_the_revision() {
    let mut judge = opened(1);
    assert_eq!(deliver(&mut judge, 0, 5, &[0]), Delivered(1));
    assert_eq!(judge.call(&Call::Withdraw(0)), Accepted);
    for revision in [0, 4, 5] {
        assert_eq!(deliver(&mut judge, 0, revision, &[0, 1]), Refused(22));
    }
    assert_eq!(judge.call(&Call::Verdict), Waiting(1));
    assert_eq!(deliver(&mut judge, 0, 6, &[0, 1]), Delivered(2));
    assert_eq!(judge.call(&Call::Verdict), Yes(Work::new(2, 2)));
}

#[test]
fn a_place_that_never_had_one_takes_any() {
    for revision in [0, 1, 1 << 31, u32::MAX] {
        let mut judge = opened(2);
        assert_eq!(deliver(&mut judge, 1, 9, &[0]), Delivered(1));
        assert_eq!(deliver(&mut judge, 0, revision, &[0]), Delivered(1));
    }
}

/// A refused delivery leaves no revision behind, whatever it is refused with.
#[test]
fn a_refused_delivery_is_not_remembered() {
    let mut judge = opened(1);
    assert_eq!(deliver(&mut judge, 0, 9, &[2]), Refused(13));
    assert_eq!(deliver(&mut judge, 0, 9, &[0; 65_537]), Refused(12));
    assert_eq!(deliver(&mut judge, 0, 3, &[0]), Delivered(1));
    assert_eq!(deliver(&mut judge, 0, 2, &[0]), Refused(22));
    assert_eq!(deliver(&mut judge, 0, 9, &[2]), Refused(13));
    assert_eq!(deliver(&mut judge, 0, 4, &[0]), Delivered(1));
}

/// 22 is the last in the order: 11, 12 and 13 come before it.
#[test]
fn the_order_of_the_numbers() {
    let mut judge = opened(1);
    assert_eq!(deliver(&mut judge, 0, 3, &[0]), Delivered(1));
    assert_eq!(deliver(&mut judge, 1, 3, &[0]), Refused(11));
    assert_eq!(deliver(&mut judge, 0, 3, &[2; 65_537]), Refused(12));
    assert_eq!(deliver(&mut judge, 0, 3, &[2]), Refused(13));
    assert_eq!(deliver(&mut judge, 0, 3, &[1]), Refused(22));
}

/// An opening forgets the revisions, and so does a rule, loaded or installed; a refused one does not.
#[test]
fn openings_and_rules_forget() {
    let value = Box::new(CheckedRule::of(&a()));
    for call in [Call::Open(1), Call::Load(file(&a())), Call::Install(value)] {
        let mut judge = opened(1);
        assert_eq!(deliver(&mut judge, 0, 9, &[0]), Delivered(1));
        for refused in [Call::Open(0), Call::Open(65), Call::Load(vec![])] {
            assert!(matches!(judge.call(&refused), Refused(_)));
            assert_eq!(deliver(&mut judge, 0, 9, &[0]), Refused(22));
        }
        judge.call(&call);
        assert_eq!(judge.call(&Call::Open(1)), Accepted);
        assert_eq!(deliver(&mut judge, 0, 0, &[0]), Delivered(1));
    }
}

/// The board that deliveries to a fresh one leave.
fn left(places: u64, deliveries: &[(u64, u32, Vec<u8>)]) -> Board {
    let mut judge = opened(places);
    for (place, revision, chunk) in deliveries {
        assert!(matches!(deliver(&mut judge, *place, *revision, chunk), Delivered(_) | Refused(22)));
    }
    judge.board().unwrap().clone()
}

/// Two orders of the same deliveries to a fresh board, no revision twice at a place, end in the same
/// board: at each place the chunk of the greatest revision.
#[test]
fn any_order_ends_in_the_same_board() {
    let mut r = Random::new(11, 11);
    for _ in 0..500 {
        let places = r.range(1, 6) as u64;
        let mut deliveries: Vec<(u64, u32, Vec<u8>)> = Vec::new();
        for _ in 0..r.below(20) {
            let any = r.next() as u32;
            let place = r.below(places as usize) as u64;
            let revision = r.pick(&[0, 1, 2, 3, 4, 5, u32::MAX - 1, u32::MAX, any]);
            let chunk = (0..r.below(5)).map(|_| r.pick(&[0, 1, 255])).collect();
            if !deliveries.iter().any(|other| (other.0, other.1) == (place, revision)) {
                deliveries.push((place, revision, chunk));
            }
        }
        let greatest = |place: u64| deliveries.iter().filter(|d| d.0 == place).max_by_key(|d| d.1);
        let due: Board = (0..places)
            .map(|place| greatest(place).map_or(Place::default(), |d| Place { last: Some(d.1), chunk: Some(d.2.clone()) }))
            .collect();
        for _ in 0..4 {
            assert_eq!(left(places, &deliveries), due);
            let mut other = deliveries.clone();
            r.shuffle(&mut other);
            assert_eq!(left(places, &other), due);
        }
    }
}
