//! A pattern becomes a rule file, and the rule judges texts as the pattern says.
use bellbadger::patterns::{rule_file, LONGEST_FILE};
use bellbadger::{read, Judge};

fn number(pattern: &[u8]) -> u8 {
    rule_file(pattern).unwrap_err().number()
}

/// Whether a pattern's rule accepts a text.
fn accepts(pattern: &str, text: &[u8]) -> bool {
    let mut judge = Judge::new();
    let file = rule_file(pattern.as_bytes()).expect("a pattern");
    assert!(judge.load(&file).is_ok() && judge.open(1).is_ok());
    assert!(judge.deliver(0, 0, text).is_ok());
    judge.verdict().expect("a board").is_yes()
}

#[test]
fn the_file_of_a_pattern() {
    let file = [
        4, 16, 1, 0, 0, 0, 14, 0, 0, 0, 26, 0, 4, 0, 30, 0, 0, 0, 30, 0, 2, 0, 32, 0, 2, 0, 0, 1,
        1, 2, 2, 3, 2, 3,
    ];
    assert_eq!(rule_file(b"a|bc*").as_deref(), Ok(&file[..]));
}

/// What binds how: the bar loosest, the star tightest; and what may be empty.
#[test]
fn texts() {
    for (pattern, yes, no) in [
        ("", vec![vec![]], vec![vec![0]]),
        ("a|bc*", vec![vec![0], vec![1, 2, 2]], vec![vec![0, 2]]),
        ("(a|b)c", vec![vec![0, 2], vec![1, 2]], vec![vec![0]]),
        ("ab*", vec![vec![0, 1, 1]], vec![vec![0, 1, 0, 1], vec![]]),
        ("(ab)*", vec![vec![], vec![0, 1, 0, 1]], vec![vec![0]]),
        ("a()*(|p)", vec![vec![0], vec![0, 15]], vec![vec![15]]),
    ] {
        assert!(yes.iter().all(|text| accepts(pattern, text)), "{pattern}");
        assert!(!no.iter().any(|text| accepts(pattern, text)), "{pattern}");
    }
}

#[test]
fn refusals() {
    assert_eq!((number(&[b'a'; 129]), number(&[b'*'; 129])), (30, 30));
    for pattern in ["*", "a|*", "(*)", "(a", "a)", "q", "A", "a b", "a\n", "a+"] {
        assert_eq!(number(pattern.as_bytes()), 31, "{pattern}");
    }
    assert_eq!((number(&[b'a'; 128]), number(&[b'a'; 32])), (32, 32));
    let open = [vec![b'a'; 40], vec![b'(']].concat();
    assert_eq!(number(&open), 31);
}

#[test]
fn the_largest_file() {
    let letters: Vec<String> = (0..31)
        .map(|i| char::from(b'a' + i % 16).to_string())
        .collect();
    let file = rule_file(format!("({})*", letters.join("|")).as_bytes()).expect("a pattern");
    assert_eq!(file.len(), LONGEST_FILE);
    assert_eq!(read(&file).map(|rule| (rule.n, rule.k)), Ok((32, 16)));
}
