//! A trace that comes in order, followed chunk by chunk.

use reference::automata::{automaton, blank, file};
use reference::checked::CheckedRule;
use reference::follow::{answers, continues, Followed, Follower};
use reference::judge::{Answer, Call, Judge};
use reference::random::Random;
use reference::rule::Automaton;

/// 0 and then 1, and nothing else.
fn once() -> Automaton {
    let mut a = blank(3, 2);
    (a.initial, a.finals) = (1, 4);
    (a.targets[0][0], a.targets[1][1]) = (2, 4);
    a
}

fn fresh(a: &Automaton) -> Follower {
    Follower::new(&CheckedRule::of(a)).unwrap()
}

fn of(accepted: bool, lost: Option<usize>, expected: &[u8], complete: bool) -> Result<Followed, u32> {
    Ok(Followed { accepted, lost, expected: expected.to_vec(), complete })
}

fn small(r: &mut Random) -> Automaton {
    let (n, k) = (r.range(1, 3), r.range(1, 3));
    let set = |r: &mut Random| r.below(1 << n) as u32;
    let mut a = blank(n, k);
    (a.initial, a.finals) = (set(r), set(r));
    for q in 0..n {
        for s in 0..k {
            a.targets[q][s] = set(r) & set(r);
        }
    }
    a
}

/// All texts of up to so many symbols.
fn texts(k: usize, most: usize) -> Vec<Vec<u8>> {
    let (mut all, mut longest) = (vec![vec![]], vec![vec![]]);
    for _ in 0..most {
        let longer = |text: &Vec<u8>| (0..k as u8).map(|s| [text.as_slice(), &[s]].concat()).collect::<Vec<_>>();
        longest = longest.iter().flat_map(longer).collect();
        all.extend(longest.clone());
    }
    all
}

/// The runs over a text, as lists of states.
fn runs(a: &Automaton, text: &[u8]) -> Vec<Vec<usize>> {
    let mut runs: Vec<Vec<usize>> = (0..a.n).filter(|q| a.initial >> q & 1 == 1).map(|q| vec![q]).collect();
    for &s in text {
        let longer = |run: &Vec<usize>| {
            let targets = a.targets[run[run.len() - 1]][s as usize];
            (0..a.n).filter(|p| targets >> p & 1 == 1).map(|p| [run.as_slice(), &[p]].concat()).collect::<Vec<_>>()
        };
        runs = runs.iter().flat_map(longer).collect();
    }
    runs
}

fn accepted(a: &Automaton, text: &[u8]) -> bool {
    runs(a, text).iter().any(|run| a.finals >> run[run.len() - 1] & 1 == 1)
}

fn chunk(r: &mut Random, k: usize, most: usize) -> Vec<u8> {
    (0..r.below(most + 1)).map(|_| if r.one_in(5) { 255 } else { r.below(k) as u8 }).collect()
}

#[test]
fn worked_by_hand() {
    let mut follower = fresh(&once());
    assert_eq!(follower.follow(&[]), of(false, None, &[0], false));
    assert_eq!(follower.follow(&[255, 0]), of(false, None, &[1], false));
    assert_eq!((follower.follow(&[1, 255]), follower.set()), (of(true, None, &[], true), 4));
    assert_eq!((follower.follow(&[255, 0, 1]), follower.set()), (of(false, Some(2), &[], true), 0));
    assert_eq!(follower.follow(&[]), of(false, Some(0), &[], false));
    assert_eq!(fresh(&once()).follow(&[255, 0, 255, 0, 1]), of(false, Some(4), &[1], false));
    assert_eq!(fresh(&blank(1, 1)).follow(&[0]), of(false, Some(0), &[], false));
}

/// A refused chunk did not come.
#[test]
fn refusals_in_order() {
    let mut follower = fresh(&once());
    follower.follow(&[0]).unwrap();
    for (chunk, number) in [(vec![1, 2], 13), (vec![254], 13), (vec![2; 65_537], 12)] {
        assert_eq!((follower.follow(&chunk), follower.set()), (Err(number), 2));
    }
    assert_eq!(follower.follow(&[1]), of(true, None, &[], true));
    let mut rule = CheckedRule::of(&once());
    rule.targets[0][2] = 1;
    assert_eq!(Follower::new(&rule).err(), Some(8));
    rule.finals = 8;
    assert_eq!(Follower::new(&rule).err(), Some(6));
    rule.k = 17;
    assert_eq!(Follower::new(&rule).err(), Some(4));
    rule.n = 0;
    assert_eq!(Follower::new(&rule).err(), Some(3));
}

/// Every answer by single runs and by trying all continuations that are shorter than there are states.
#[test]
fn by_all_runs_and_continuations() {
    let mut r = Random::new(15, 0);
    let mut lost = 0;
    for _ in 0..1500 {
        let a = small(&mut r);
        let ends = texts(a.k, a.n);
        let hope = |text: &[u8]| ends.iter().any(|end| accepted(&a, &[text, end].concat()));
        let (mut follower, mut came) = (fresh(&a), Vec::new());
        for _ in 0..3 {
            let chunk = chunk(&mut r, a.k, 3);
            // each byte of the chunk with the text up to it
            let mut all = vec![came.clone()];
            for &byte in &chunk {
                let mut text: Vec<u8> = all[all.len() - 1].clone();
                if byte != 255 { text.push(byte); }
                all.push(text);
            }
            came = all[chunk.len()].clone();
            let answer = follower.follow(&chunk).unwrap();
            assert_eq!(answer.accepted, accepted(&a, &came));
            let there = match answer.lost {
                None => chunk.len(),
                Some(bytes) => { lost += (bytes > 0) as usize; bytes.max(1) - 1 }
            };
            for (bytes, text) in all.iter().enumerate() {
                if bytes <= there && answer.lost != Some(0) { assert!(hope(text)) }
                if Some(bytes) == answer.lost { assert!(!hope(text)) }
                assert_eq!(hope(text), continues(&a, text));
            }
            for s in 0..a.k as u8 {
                assert_eq!(answer.expected.contains(&s), hope(&[all[there].as_slice(), &[s]].concat()));
            }
            assert_eq!(answer.complete, accepted(&a, &all[there]));
            let reached = runs(&a, &came).iter().fold(0, |set, run| set | 1 << run[run.len() - 1]);
            assert_eq!(follower.set(), reached);
        }
    }
    assert!(lost > 300, "{lost}");
}

/// The last answer is the yes or no of a filled board with the same chunks.
#[test]
fn as_a_filled_board() {
    let mut r = Random::new(15, 1);
    let (mut yes, mut no) = (0, 0);
    for _ in 0..1000 {
        let a = automaton(&mut r);
        let mut judge = Judge::default();
        if !matches!(judge.call(&Call::Install(Box::new(CheckedRule::of(&a)))), Answer::Installed(..)) { continue }
        let chunks: Vec<Vec<u8>> = (0..r.range(1, 6)).map(|_| chunk(&mut r, a.k, 5)).collect();
        judge.call(&Call::Open(chunks.len() as u64));
        let (mut follower, mut last) = (fresh(&a), false);
        for (place, chunk) in chunks.iter().enumerate() {
            judge.call(&Call::Deliver(place as u64, 0, chunk.clone()));
            last = follower.follow(chunk).unwrap().accepted;
        }
        match judge.call(&Call::Verdict) {
            Answer::Yes(_) => { assert!(last); yes += 1 }
            Answer::No(_) => { assert!(!last); no += 1 }
            other => panic!("{other:?}"),
        }
    }
    assert!(yes > 100 && no > 100, "{yes} {no}");
}

#[test]
fn lines_of_tracefollow() {
    let rule: String = file(&once()).iter().map(|byte| format!("{byte:02x}")).collect();
    let begin = format!("rule {rule}");
    let cases = [
        ("next 00", "refused 20"),
        (&begin, "accepted"),
        ("next -", "no 0001"),
        ("next FF00", "no 0002"),
        ("next 02", "refused 13"),
        ("rule 00", "refused 1"),
        ("next 01", "yes 0000"),
        ("next FF00", "lost 2 0000"),
        ("next -", "lost 0 0000"),
        (&begin, "accepted"),
        ("next 0000", "lost 2 0002"),
        ("next 0", "malformed"),
        (&begin, "skipped"),
        ("", ""),
        ("next 00", "refused 20"),
    ];
    let text: String = cases.iter().map(|(line, _)| format!("{line}\n")).collect();
    let due: String = cases.iter().map(|(_, answer)| format!("{answer}\n")).collect();
    assert_eq!(answers(text.as_bytes()), due);
    for line in ["next", "next ", "rule 0", "rule 00 ", " next 00", "Next 00", "next 00 00", "rule"] {
        assert_eq!(answers(format!("{begin}\n{line}\nnext 00").as_bytes()), "accepted\nmalformed\nskipped\n", "{line}");
    }
}
