//! two rules made one.

use reference::automata::{blank, file};
use reference::checked::{read, CheckedRule};
use reference::merges::Way::{self, Both, Either, Interleaving};
use reference::merges::{answer, merge};
use reference::random::Random;
use reference::rule::Automaton;

/// Rule A of the paper: it accepts the texts that end in 0 1.
fn a() -> Automaton {
    let mut a = blank(3, 2);
    (a.initial, a.finals) = (1, 4);
    a.targets = vec![vec![3, 1], vec![0, 4], vec![0, 0]];
    a
}

/// The texts with an even number of 0s.
fn e() -> Automaton {
    let mut e = blank(2, 2);
    (e.initial, e.finals) = (1, 1);
    e.targets = vec![vec![2, 1], vec![1, 2]];
    e
}

fn merged(way: Way, a: &Automaton, b: &Automaton) -> Result<CheckedRule, u32> {
    merge(way, &CheckedRule::of(a), &CheckedRule::of(b))
}

/// All texts of so many symbols at most.
fn texts(k: usize, most: usize) -> Vec<Vec<u8>> {
    let mut all = vec![Vec::new()];
    let mut last = all.clone();
    for _ in 0..most {
        last = last
            .iter()
            .flat_map(|text: &Vec<u8>| (0..k as u8).map(move |s| [text.as_slice(), &[s]].concat()))
            .collect();
        all.extend(last.clone());
    }
    all
}

fn accepts(a: &Automaton, text: &[u8]) -> bool {
    a.accepts_from(a.initial, text)
}

/// Each way to give every symbol of a text to one of two readers.
fn splits(text: &[u8]) -> impl Iterator<Item = (Vec<u8>, Vec<u8>)> + '_ {
    (0..1u32 << text.len()).map(move |marks| {
        let part = |mark: u32| (0..text.len()).filter(|&i| marks >> i & 1 == mark).map(|i| text[i]).collect();
        (part(1), part(0))
    })
}

fn due(way: Way, a: &Automaton, b: &Automaton, text: &[u8]) -> bool {
    match way {
        Both => accepts(a, text) && accepts(b, text),
        Either => accepts(a, text) || accepts(b, text),
        Interleaving => splits(text).any(|(u, v)| accepts(a, &u) && accepts(b, &v)),
    }
}

/// An automaton of up to four states.
fn small(r: &mut Random, k: usize) -> Automaton {
    let n = r.range(1, 4);
    let set = |r: &mut Random| r.below(1 << n) as u32;
    let mut a = blank(n, k);
    (a.initial, a.finals) = (set(r), set(r));
    for q in 0..n {
        for s in 0..k {
            a.targets[q][s] = set(r) & set(r);
        }
    }
    a
}

#[test]
fn worked_by_hand() {
    let rows = |rule: &CheckedRule| -> Vec<[u32; 2]> {
        rule.targets[..rule.n as usize].iter().map(|row| [row[0], row[1]]).collect()
    };
    let both = merged(Both, &e(), &a()).unwrap();
    assert_eq!((both.n, both.k, both.initial, both.finals), (6, 2, 1, 4));
    assert_eq!(rows(&both), [[24, 1], [0, 4], [0, 0], [3, 8], [0, 32], [0, 0]]);
    let either = merged(Either, &e(), &a()).unwrap();
    assert_eq!((either.n, either.k, either.initial, either.finals), (5, 2, 5, 17));
    assert_eq!(rows(&either), [[2, 1], [1, 2], [12, 4], [0, 16], [0, 0]]);
    let woven = merged(Interleaving, &e(), &a()).unwrap();
    assert_eq!((woven.n, woven.k, woven.initial, woven.finals), (6, 2, 1, 4));
    assert_eq!(rows(&woven), [[11, 1], [16, 6], [32, 4], [25, 8], [2, 48], [4, 32]]);
}

#[test]
fn the_languages() {
    let mut r = Random::new(10, 0);
    for _ in 0..300 {
        let k = r.range(1, 2);
        let (a, b) = (small(&mut r, k), small(&mut r, k));
        for way in [Both, Either, Interleaving] {
            let result = merged(way, &a, &b).unwrap().automaton().unwrap();
            for text in texts(k, 5) {
                assert_eq!(accepts(&result, &text), due(way, &a, &b, &text), "{way:?} {a:?} {b:?} {text:?}");
            }
        }
    }
}

#[test]
fn refusals_in_order() {
    let of = |n: u8, k: u8| CheckedRule { n, k, ..CheckedRule::of(&blank(1, 1)) };
    let refused = |way, one: &CheckedRule, two: &CheckedRule| merge(way, one, two).unwrap_err();
    assert_eq!(refused(Both, &of(0, 17), &of(33, 0)), 3);
    assert_eq!(refused(Either, &of(1, 17), &of(33, 0)), 4);
    assert_eq!(refused(Interleaving, &of(1, 1), &of(33, 0)), 3);
    assert_eq!(refused(Interleaving, &of(32, 1), &of(32, 0)), 4);
    let stray = CheckedRule { finals: 2, ..of(1, 2) };
    assert_eq!((refused(Both, &of(1, 1), &stray), refused(Both, &stray, &of(1, 1))), (6, 6));
    let mut kept = of(1, 2);
    kept.targets[0][2] = 1;
    assert_eq!((refused(Either, &of(32, 1), &kept), refused(Either, &kept, &of(0, 1))), (8, 8));
    assert_eq!((refused(Both, &of(32, 1), &of(32, 2)), refused(Both, &of(2, 2), &of(1, 1))), (36, 36));
    for (way, n1, n2, fits) in [
        (Both, 4, 8, true),
        (Both, 3, 11, false),
        (Both, 16, 16, false),
        (Either, 16, 16, true),
        (Either, 1, 32, false),
        (Interleaving, 32, 1, true),
        (Interleaving, 17, 2, false),
    ] {
        let answer = merge(way, &of(n1, 1), &of(n2, 1)).map(|rule| rule.n);
        assert_eq!(answer, if fits { Ok(32) } else { Err(37) });
    }
}

#[test]
fn lines_and_files() {
    let hex = |rule: &Automaton| file(rule).iter().map(|byte| format!("{byte:02x}")).collect::<String>();
    let (one, two) = (hex(&e()), hex(&a()));
    assert_eq!(two.to_uppercase(), "03020100000004000000160006001C0002001E0000000000000101000102");
    let result = answer(format!("both {one} {two}").as_bytes());
    let bytes: Vec<u8> = (0..result.len()).step_by(2).map(|i| u8::from_str_radix(&result[i..i + 2], 16).unwrap()).collect();
    assert_eq!(read(&bytes), merged(Both, &e(), &a()));
    assert_eq!(answer(format!("either - {two}").as_bytes()), "refused 1");
    assert_eq!(answer(format!("either {two} -").as_bytes()), "refused 1");
    for line in ["", "both", "both ", "both - ", "both - - ", " both - -", "both  - -", "Both - -", "both - 0", "join - -"] {
        assert_eq!(answer(line.as_bytes()), "malformed", "{line:?}");
    }
}

#[test]
fn comparing_and_reducing_lines() {
    let hex = |file: Vec<u8>| file.iter().map(|byte| format!("{byte:02x}")).collect::<String>();
    let (even, ends) = (hex(file(&e())), hex(file(&a())));
    // the empty text has an even number of 0s, and does not end in 0 and then 1
    let cases = [
        (format!("compare {even} {ends}"), "apart first -".to_string()),
        (format!("compare {ends} {even}"), "apart second -".to_string()),
        (format!("compare {ends} {}", ends.to_uppercase()), "same".to_string()),
        (format!("compare {ends} -"), "refused 1".to_string()),
        (format!("compare - {ends}"), "refused 1".to_string()),
        (format!("reduce {ends}"), ends.to_uppercase()),
        ("reduce -".to_string(), "refused 1".to_string()),
        (format!("reduce {ends} {ends}"), "malformed".to_string()),
        (format!("compare {ends}"), "malformed".to_string()),
        ("reduce".to_string(), "malformed".to_string()),
    ];
    for (line, due) in cases {
        assert_eq!(answer(line.as_bytes()), due, "{line}");
    }
}
