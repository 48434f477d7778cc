//! made test texts.

use reference::made::{answer, make};

/// Some texts, and that a shorter one is the beginning of a longer one.
#[test]
fn texts() {
    assert_eq!(make(16, 1, 8), Ok(vec![1, 1, 9, 5, 5, 1, 1, 13]));
    assert_eq!(make(10, 2, 6), Ok(vec![2, 9, 6, 8, 8, 9]));
    assert_eq!(make(1, u64::MAX, 3), Ok(vec![0, 0, 0]));
    let long = make(13, 99, 4000).unwrap();
    for length in [0, 1, 100] {
        assert_eq!(make(13, 99, length).unwrap(), long[..length]);
    }
    assert!((0..13).all(|symbol| long.contains(&symbol)) && long.iter().all(|&symbol| symbol < 13));
}

/// 4 comes before 41.
#[test]
fn refusals() {
    for k in (0..300).chain([65537, 1 << 32 | 1, u64::MAX]) {
        let in_range = (1..=16).contains(&k);
        assert_eq!(make(k, 0, 1), Err(if in_range { 41 } else { 4 }));
        assert_eq!(make(k, 1, 1).is_ok(), in_range);
    }
}

/// The answers that the program has stored are those of this implementation.
#[test]
fn stored_lines() {
    let stored = |name| std::fs::read(format!("{}/../crates/maketext/{name}", env!("CARGO_MANIFEST_DIR"))).unwrap();
    let (lines, answers) = (stored("stdin"), stored("stdout"));
    let mut count = 0;
    for (line, due) in lines.split(|&c| c == b'\n').zip(answers.split(|&c| c == b'\n')) {
        assert_eq!(answer(line).as_bytes(), due, "line {}", count + 1);
        count += 1;
    }
    assert!(count > 100);
}
