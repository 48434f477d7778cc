//! the mapping machine.

use reference::automata::{blank, file};
use reference::checked::CheckedRule;
use reference::judge::{Answer, Call, Judge};
use reference::mappings::{answers, compose, digits, printed, Mapping, Profile};
use reference::random::Random;
use reference::rule::Automaton;

/// Rule A of the paper: it accepts the texts that end in 0 1.
fn a() -> Automaton {
    let mut a = blank(3, 2);
    (a.initial, a.finals) = (1, 4);
    a.targets = vec![vec![3, 1], vec![0, 4], vec![0, 0]];
    a
}

fn built(a: &Automaton) -> Result<Profile, u32> {
    Profile::build(&CheckedRule::of(a))
}

/// An automaton of up to so many states.
fn small(r: &mut Random, most: usize) -> Automaton {
    let (n, k) = (r.range(1, most), r.range(1, 3));
    let set = |r: &mut Random| r.below(1 << n) as u32;
    let mut a = blank(n, k);
    (a.initial, a.finals) = (set(r), set(r));
    for q in 0..n {
        for s in 0..k {
            a.targets[q][s] = set(r) & set(r);
        }
    }
    a
}

fn any_mapping(r: &mut Random) -> Mapping {
    std::array::from_fn(|_| r.below(256) as u8)
}

/// A chunk of up to so many bytes, some of them idle marks.
fn any_chunk(r: &mut Random, k: usize, most: usize) -> Vec<u8> {
    (0..r.below(most + 1)).map(|_| if r.one_in(5) { 255 } else { r.below(k) as u8 }).collect()
}

/// The mapping of a text by its sets, state by state.
fn by_sets(a: &Automaton, chunk: &[u8]) -> Mapping {
    let text: Vec<u8> = chunk.iter().copied().filter(|&byte| byte != 255).collect();
    std::array::from_fn(|q| if q < a.n { a.after(1 << q, &text) as u8 } else { 0 })
}

#[test]
fn rule_a_by_hand() {
    let shown = "mappings 5\n0 0102040000000000 1 2\n1 0300000000000000 1 3\n2 0104000000000000 1 4\n\
                 3 0500000000000000 1 4\n4 0100000000000000 1 4\n";
    assert_eq!(printed(&file(&a())), shown);
    let profile = built(&a()).unwrap();
    let (zero, one) = (profile.run(&[0]).unwrap(), profile.run(&[255, 1]).unwrap());
    assert_eq!(digits(&compose(&zero, &one)), "0500000000000000");
    assert_eq!(digits(&compose(&one, &zero)), "0300000000000000");
    assert!(profile.verdict(&compose(&zero, &one)) && !profile.verdict(&zero));
    assert!(!profile.verdict(&[0xF8, 4, 4, 4, 4, 4, 4, 4]));
}

#[test]
fn refusals() {
    let profile = built(&a()).unwrap();
    assert_eq!(profile.run(&[0, 2]), Err(13));
    assert_eq!(profile.run(&[254]), Err(13));
    assert_eq!(profile.run(&[255; 65_537]), Err(12));
    assert_eq!(profile.run(&[255; 65_536]), Ok([1, 2, 4, 0, 0, 0, 0, 0]));
    assert_eq!(built(&blank(8, 1)).map(|profile| profile.mappings.len()).ok(), Some(2));
    assert_eq!(built(&blank(9, 1)).err(), Some(33));
    // each symbol leads each state to itself, and one of the first three to one of the next three too
    let mut many = blank(8, 9);
    for q in 0..8 {
        many.targets[q] = (0..9).map(|s| 1 << q | if s / 3 == q { 8 << (s % 3) } else { 0 }).collect();
    }
    assert_eq!(built(&many).map(|profile| profile.mappings.len()).ok(), Some(512));
    many.k = 10;
    many.targets.iter_mut().for_each(|row| row.push(0));
    assert_eq!(built(&many).err(), Some(34));
    let mut wrong = CheckedRule::of(&a());
    wrong.initial = 8;
    assert_eq!(Profile::build(&wrong).err(), Some(6));
}

/// Each mapping is that of a text, and that of each text is there; the first texts rise.
#[test]
fn mappings_of_texts() {
    let mut r = Random::new(8, 0);
    for _ in 0..300 {
        let a = small(&mut r, 4);
        let Ok(profile) = built(&a) else { continue };
        for _ in 0..20 {
            let chunk = any_chunk(&mut r, a.k, 12);
            assert_eq!(profile.run(&chunk), Ok(by_sets(&a, &chunk)));
        }
        // by breadth: the first text of each number, found before that of the next
        let mut first: Vec<Option<Vec<u8>>> = vec![None; profile.mappings.len()];
        first[0] = Some(Vec::new());
        let mut reached = 1;
        for i in 0..profile.mappings.len() {
            let text = first[i].clone().expect("a number is reached before it is expanded");
            assert_eq!(by_sets(&a, &text), profile.mappings[i]);
            for s in 0..a.k {
                let to = profile.next[i][s];
                if first[to].is_none() {
                    assert_eq!(to, reached);
                    reached += 1;
                    first[to] = Some([text.as_slice(), &[s as u8]].concat());
                }
            }
        }
        assert_eq!(reached, profile.mappings.len());
    }
}

#[test]
fn composition_of_any_values() {
    let mut r = Random::new(8, 1);
    let identity: Mapping = std::array::from_fn(|q| 1 << q);
    for _ in 0..20_000 {
        let (f, g, h) = (any_mapping(&mut r), any_mapping(&mut r), any_mapping(&mut r));
        assert_eq!(compose(&compose(&f, &g), &h), compose(&f, &compose(&g, &h)));
        assert_eq!((compose(&f, &identity), compose(&identity, &f)), (f, f));
    }
}

/// The mappings composed two at a time, anywhere, until one is left.
fn in_any_bracketing(r: &mut Random, mut mappings: Vec<Mapping>) -> Mapping {
    while mappings.len() > 1 {
        let at = r.below(mappings.len() - 1);
        let later = mappings.remove(at + 1);
        mappings[at] = compose(&mappings[at], &later);
    }
    mappings[0]
}

/// The same yes or no as the judge says of a filled board with the same chunks, at 3,000 random cuts.
#[test]
fn as_a_filled_board() {
    let mut r = Random::new(8, 2);
    let (mut yes, mut no) = (0, 0);
    for _ in 0..3000 {
        let a = small(&mut r, 5);
        let Ok(profile) = built(&a) else { continue };
        let chunks: Vec<Vec<u8>> = (0..r.range(1, 8)).map(|_| any_chunk(&mut r, a.k, 4)).collect();
        let mut judge = Judge::default();
        judge.call(&Call::Install(Box::new(CheckedRule::of(&a))));
        judge.call(&Call::Open(chunks.len() as u64));
        for (place, chunk) in chunks.iter().enumerate() {
            let delivered = judge.call(&Call::Deliver(place as u64, 0, chunk.clone()));
            assert!(matches!(delivered, Answer::Delivered(_)));
        }
        let mappings = chunks.iter().map(|chunk| profile.run(chunk).unwrap()).collect();
        let said = profile.verdict(&in_any_bracketing(&mut r, mappings));
        match judge.call(&Call::Verdict) {
            Answer::Yes(_) => { assert!(said); yes += 1 }
            Answer::No(_) => { assert!(!said); no += 1 }
            other => panic!("{other:?}"),
        }
    }
    assert!(yes > 300 && no > 300, "{yes} {no}");
}

#[test]
fn lines_of_mapjudge() {
    let rule: String = file(&a()).iter().map(|byte| format!("{byte:02x}")).collect();
    let build = format!("build {rule}");
    let cases = [
        ("run 00", "no profile"),
        ("verdict 0500000000000000", "no profile"),
        ("compose 0300000000000000 0104000000000000", "0500000000000000"),
        (&build, "accepted 5"),
        ("run 00FF01", "0500000000000000"),
        ("run -", "0102040000000000"),
        ("run 02", "refused 13"),
        ("verdict 0500000000000000", "yes"),
        ("build 00", "refused 1"),
        ("verdict fb00000000000000", "no"),
        ("verdict 05000000000000", "malformed"),
        ("verdict 0500000000000000", "skipped"),
        ("compose 0300000000000000 0104000000000000", "skipped"),
        ("run 0", "skipped"),
        ("", ""),
        ("run 00", "no profile"),
        (&build, "accepted 5"),
        ("verdict 0500000000000000", "yes"),
        ("", ""),
        ("", ""),
        ("run 0g", "malformed"),
        (&build, "skipped"),
    ];
    let text: String = cases.iter().map(|(line, _)| format!("{line}\n")).collect();
    let due: String = cases.iter().map(|(_, answer)| format!("{answer}\n")).collect();
    assert_eq!(answers(text.as_bytes()), due);
    for line in ["verdict -", "run 0", "compose 0300000000000000", " run 00", "run 00 ", "load 00", "Run 00"] {
        assert_eq!(answers(format!("{build}\n{line}\nrun 00").as_bytes()), "accepted 5\nmalformed\nskipped\n", "{line}");
    }
}
