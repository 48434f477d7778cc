//! Two rules reduced and made one: the words of merging's texts, and no pair that is unreachable or
//! dead.

use reference::automata::{blank, from_the_end};
use reference::checked::CheckedRule;
use reference::merges::merge;
use reference::merges::Way::{self, Both, Either, Interleaving};
use reference::random::Random;
use reference::reducedmerges::{merge_reduced, pairs, Merged};
use reference::reductions::{grows, reduce};
use reference::rule::Automaton;

const WAYS: [Way; 3] = [Both, Either, Interleaving];

fn automaton(initial: u32, finals: u32, rows: &[&[u32]]) -> Automaton {
    let targets: Vec<Vec<u32>> = rows.iter().map(|row| row.to_vec()).collect();
    Automaton { n: rows.len(), k: rows[0].len(), initial, finals, targets }
}

/// Rule A of the paper: it accepts the texts that end in 0 1.
fn a() -> Automaton {
    automaton(1, 4, &[&[3, 1], &[0, 4], &[0, 0]])
}

/// The texts with an even number of 0s.
fn e() -> Automaton {
    automaton(1, 1, &[&[2, 1], &[1, 2]])
}

fn cycle(n: usize) -> Automaton {
    let targets = (0..n).map(|q| vec![1 << (q + 1) % n]).collect();
    Automaton { n, k: 1, initial: 1, finals: 1, targets }
}

fn merged(way: Way, a: &Automaton, b: &Automaton) -> Result<Merged, u32> {
    merge_reduced(way, &CheckedRule::of(a), &CheckedRule::of(b))
}

fn result(way: Way, a: &Automaton, b: &Automaton) -> Automaton {
    merged(way, a, b).unwrap().rule.automaton().unwrap()
}

/// All texts of so many symbols at most.
fn texts(k: usize, most: usize) -> Vec<Vec<u8>> {
    let (mut all, mut longest) = (vec![vec![]], vec![vec![]]);
    for _ in 0..most {
        let longer = |text: &Vec<u8>| (0..k as u8).map(|s| [text.as_slice(), &[s]].concat()).collect::<Vec<_>>();
        longest = longest.iter().flat_map(longer).collect();
        all.extend(longest.clone());
    }
    all
}

fn small(r: &mut Random, k: usize) -> Automaton {
    let n = r.range(1, 3);
    let set = |r: &mut Random| r.below(1 << n) as u32;
    let mut a = blank(n, k);
    (a.initial, a.finals) = (set(r), set(r));
    for q in 0..n {
        for s in 0..k { a.targets[q][s] = set(r) & set(r); }
    }
    a
}

#[test]
fn worked_by_hand() {
    // an odd number of 0s, and 1 or nothing to come: these two pairs go
    assert_eq!(result(Both, &e(), &a()), automaton(1, 4, &[&[8, 1], &[0, 4], &[0, 0], &[3, 8]]));
    for way in [Either, Interleaving] {
        assert_eq!(merged(way, &e(), &a()).unwrap().rule, merge(way, &CheckedRule::of(&e()), &CheckedRule::of(&a())).unwrap());
    }
    let none = automaton(1, 0, &[&[1, 1]]);
    assert_eq!((result(Both, &none, &a()), result(Interleaving, &none, &a())), (blank(1, 2), blank(1, 2)));
    assert_eq!(result(Either, &none, &a()), a());
}

/// Which pairs are reached and live is asked of texts: in step where both move, of each rule by
/// itself where one moves. The result is what merging makes of the reduced rules, of these states
/// alone, and reduced.
#[test]
fn by_the_words() {
    let (mut r, mut gone) = (Random::new(37, 5), [0; 3]);
    for _ in 0..600 {
        let k = r.range(1, 2);
        let [one, two] = [(); 2].map(|()| reduce(&CheckedRule::of(&small(&mut r, k))).unwrap().rule);
        let (a, b) = (one.automaton().unwrap(), two.automaton().unwrap());
        let all = texts(k, 8); // nine pairs at most
        for (at, way) in WAYS.into_iter().enumerate() {
            let reached_alone = |a: &Automaton, q: usize| all.iter().any(|text| a.after(a.initial, text) >> q & 1 == 1);
            let live_alone = |a: &Automaton, q: usize| all.iter().any(|text| a.accepts_from(1 << q, text));
            let of_one = |a: &Automaton, q: usize| reached_alone(a, q) && live_alone(a, q);
            let stays = |q: usize| match way {
                Either if q < a.n => of_one(&a, q),
                Either => of_one(&b, q - a.n),
                Interleaving => of_one(&a, q / b.n) && of_one(&b, q % b.n),
                Both => {
                    let (x, y) = (q / b.n, q % b.n);
                    all.iter().any(|text| a.after(a.initial, text) >> x & 1 == 1 && b.after(b.initial, text) >> y & 1 == 1)
                        && all.iter().any(|text| a.accepts_from(1 << x, text) && b.accepts_from(1 << y, text))
                }
            };
            let whole = merge(way, &one, &two).unwrap().automaton().unwrap();
            let old: Vec<usize> = (0..whole.n).filter(|&q| stays(q)).collect();
            let new = |set: u32| old.iter().enumerate().fold(0, |mask, (p, &q)| mask | (set >> q & 1) << p);
            let rows: Vec<Vec<u32>> = old.iter().map(|&q| whole.targets[q].iter().map(|&set| new(set)).collect()).collect();
            let (initial, finals) = (new(whole.initial), new(whole.finals));
            let trimmed = if old.is_empty() { blank(1, k) } else { Automaton { n: old.len(), k, initial, finals, targets: rows } };
            let due = reduce(&CheckedRule::of(&trimmed)).unwrap().rule;
            assert_eq!(merge_reduced(way, &one, &two), Ok(Merged { rule: due, left_out: [false; 3] }), "{way:?} {a:?} {b:?}");
            gone[at] += (old.len() < whole.n) as usize;
        }
    }
    // a reduced rule that is not empty has no unreachable state, and no dead one
    assert!(gone[0] > 100 && gone[1] > 20 && gone[2] > 20, "{gone:?}");
}

/// The texts are those of the rules as they were given, reduced or not.
#[test]
fn the_languages() {
    let mut r = Random::new(37, 6);
    for _ in 0..400 {
        let k = r.range(1, 2);
        let (a, b) = (small(&mut r, k), small(&mut r, k));
        for way in WAYS {
            let whole = merge(way, &CheckedRule::of(&a), &CheckedRule::of(&b)).unwrap().automaton().unwrap();
            let made = result(way, &a, &b);
            assert!(made.n <= whole.n);
            for text in texts(k, 6) {
                let [due, said] = [&whole, &made].map(|rule| rule.accepts_from(rule.initial, &text));
                assert_eq!(said, due, "{way:?} {a:?} {b:?} {text:?}");
            }
        }
    }
}

#[test]
fn thirty_seven_by_the_pairs_that_stay() {
    let states = |way, n1, n2| merged(way, &cycle(n1), &cycle(n2)).map(|merged| merged.rule.n);
    assert_eq!(result(Both, &cycle(32), &cycle(32)), cycle(32));
    assert_eq!((states(Both, 4, 7), states(Both, 5, 7), states(Both, 3, 11)), (Ok(28), Err(37), Err(37)));
    assert_eq!((states(Either, 15, 17), states(Either, 16, 16), states(Either, 16, 17)), (Ok(32), Ok(16), Err(37)));
    // 32 pairs, which accept 11 different sets of texts; 33
    assert_eq!((states(Interleaving, 4, 8), states(Interleaving, 3, 11)), (Ok(11), Err(37)));
}

#[test]
fn steps_left_out() {
    let (many, every) = (from_the_end(10, 2), automaton(1, 1, &[&[1, 1]]));
    let due = |left_out| Ok(Merged { rule: CheckedRule::of(&many), left_out });
    assert_eq!(merged(Both, &many, &every), due([true, false, true]));
    assert_eq!(merged(Both, &every, &many), due([false, true, true]));
    // the reduced rule has too many sets, and then the result
    let grown = merged(Both, &grows(7, 3), &every).unwrap();
    assert_eq!(grown, Merged { rule: reduce(&CheckedRule::of(&grows(7, 3))).unwrap().rule, left_out: [false, false, true] });
    assert_eq!(merged(Interleaving, &from_the_end(4, 2), &from_the_end(5, 2)).unwrap().left_out, [false, false, true]);
}

#[test]
fn refusals_in_order() {
    let of = |n: u8, k: u8| CheckedRule { n, k, ..CheckedRule::of(&blank(1, 1)) };
    let stray = CheckedRule { finals: 2, ..of(1, 2) };
    let mut kept = of(1, 2);
    kept.targets[0][2] = 1;
    for way in WAYS {
        for (one, two, due) in [
            (of(0, 17), of(33, 0), 3),
            (of(1, 17), of(33, 0), 4),
            (stray.clone(), of(0, 1), 6),
            (kept.clone(), stray.clone(), 8),
            (of(1, 1), of(33, 0), 3),
            (of(32, 1), of(32, 0), 4),
            (of(1, 1), stray.clone(), 6),
            (of(1, 1), kept.clone(), 8),
            (CheckedRule::of(&cycle(17)), CheckedRule { k: 2, ..CheckedRule::of(&cycle(16)) }, 36),
        ] {
            assert_eq!(merge_reduced(way, &one, &two), Err(due));
        }
    }
}

#[test]
fn the_lines_of_pairs() {
    let lines = pairs(1, 300);
    let answers: Vec<&str> = lines.lines().map(|line| line.splitn(4, ' ').nth(3).unwrap()).collect();
    assert_eq!(answers.len(), 300);
    for kind in ["refused 3", "refused 4", "refused 6", "refused 8", "refused 36", "refused 37", "0", " first result", " second result", " result"] {
        assert!(answers.iter().any(|answer| answer.ends_with(kind)), "{kind}");
    }
}
