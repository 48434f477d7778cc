//! Patterns: the request's words, and the rule's texts against those of the pattern.

use reference::checked::read;
use reference::patterns::{answer, parse, rule_file};
use reference::random::Random;
use reference::rule::Rule;

/// All texts of the symbols, up to a length.
fn texts(symbols: &[u8], most: usize) -> Vec<Vec<u8>> {
    let mut all = vec![Vec::new()];
    let mut last = all.clone();
    for _ in 0..most {
        last = last.iter().flat_map(|text| symbols.iter().map(|&s| [&text[..], &[s]].concat())).collect();
        all.extend(last.clone());
    }
    all
}

/// The rule of a pattern accepts what the pattern matches.
fn same_texts(bytes: &[u8], symbols: &[u8], most: usize) {
    let (pattern, _) = parse(bytes).unwrap();
    let automaton = read(&rule_file(bytes).unwrap()).unwrap().automaton().unwrap();
    for text in texts(symbols, most) {
        let accepted = automaton.accepts_from(automaton.initial, &text);
        assert_eq!(accepted, pattern.matches(&text), "{:?} {text:?}", String::from_utf8_lossy(bytes));
    }
}

#[test]
fn bindings() {
    for pattern in ["a|bc*", "ab|c", "(a|b)c", "(ab)*", "ab*", "a**", "(a*b*)*", "a(|b)c", "()a", "|", "a||b", "a*b*c*"] {
        same_texts(pattern.as_bytes(), &[0, 1, 2], 5);
    }
}

#[test]
fn letters_and_states() {
    assert_eq!(answer(b""), "011001000000010000000E000000");
    assert_eq!(answer(b"p"), "021001000000020000001200020014000000" .to_string() + "0F01");
    let rule = Rule::load(&rule_file(b"(a|b)*abb").unwrap()).ok().unwrap();
    assert_eq!((rule.automaton.n, rule.automaton.k, rule.automaton.initial, rule.automaton.finals), (6, 16, 1, 32));
}

#[test]
fn refusals_in_their_order() {
    assert_eq!(rule_file(&[b'a'; 129]), Err(30));
    assert_eq!(rule_file(&[b'('; 129]), Err(30));
    assert_eq!(rule_file(&[b'a'; 128]), Err(32));
    assert_eq!(rule_file(&[&[b'a'; 40][..], b"("].concat()), Err(31));
    assert_eq!(rule_file(&[b'a'; 32]), Err(32));
    assert!(rule_file(&[b'a'; 31]).is_ok());
    for outside in ["*", "*a", "a|*", "(*a)", "(", ")", "a)(b", "q", "A", "a b", "\n", "a\r", "é"] {
        assert_eq!(rule_file(outside.as_bytes()), Err(31), "{outside:?}");
    }
}

#[test]
fn at_most_2122_bytes() {
    let all: Vec<u8> = (0..31).map(|i| b'a' + i % 16).collect();
    let pattern = [b"(", all.iter().map(|&c| [c]).collect::<Vec<_>>().join(&b'|').as_slice(), b")*"].concat();
    assert_eq!(rule_file(&pattern).unwrap().len(), 2122);
}

/// A pattern of some letters, made at random.
fn made(r: &mut Random, size: usize) -> String {
    if size == 0 {
        return r.pick(&["", "", "()", "()*"]).to_string();
    }
    let left = r.below(size + 1);
    match r.below(5) {
        0 if size == 1 => r.pick(&["a", "b", "c", "a*", "b*"]).to_string(),
        0 | 1 => format!("{}{}", r.pick(&["a", "b", "a*", "c"]), made(r, size - 1)),
        2 => format!("{}|{}", made(r, left), made(r, size - left)),
        3 => format!("({}){}{}", made(r, left), r.pick(&["", "*", "**"]), made(r, size - left)),
        _ => format!("({}){}", made(r, size - 1), r.pick(&["", "*"])),
    }
}

#[test]
fn random_patterns() {
    let mut r = Random::new(6, 0);
    for _ in 0..400 {
        let size = r.below(7);
        let pattern = made(&mut r, size);
        same_texts(pattern.as_bytes(), &[0, 1, 2], 4);
    }
}
