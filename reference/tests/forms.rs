//! the failure form of a table, and the way back.

use reference::automata::{automaton, file};
use reference::forms::{answer, back, form, numbers, printed, table, Numbers};
use reference::random::Random;
use reference::rule::Rule;

const RULE_A: [u8; 30] =
    [3, 2, 1, 0, 0, 0, 4, 0, 0, 0, 22, 0, 6, 0, 28, 0, 2, 0, 30, 0, 0, 0, 0, 0, 0, 1, 1, 0, 1, 2];

/// Two sets and two symbols; the second set has its second cell from the first.
fn good() -> Numbers {
    Numbers { sets: 2, symbols: 2, failure: vec![0, 0], masks: vec![3, 1], cells: vec![1, 512, 0] }
}

/// The form of rule A, by hand; and refusals, as a load gives them.
#[test]
fn rule_a() {
    let due = "sets 5 symbols 2 kept 6\n0 0 0003 1 0\n1 0 0002 2\n2 0 0000\n3 0 0003 - 4\n4 3 0002 -\n";
    assert_eq!(printed(&RULE_A), due);
    assert_eq!(printed(&RULE_A[..9]), "refused 1\n");
    assert_eq!(printed(&[33; 10]), "refused 3\n");
}

/// The lowest of several sets with as many equal cells is the failure set.
#[test]
fn lowest_on_ties() {
    let cells = [[Some(0), Some(1)], [Some(0), Some(2)], [Some(1), Some(1)], [Some(0), None]];
    let form = form(&cells.map(|row| row.to_vec()));
    let failures: Vec<usize> = form.sets.iter().map(|set| set.failure).collect();
    assert_eq!(failures, [0, 0, 0, 0]);
    let kept: Vec<usize> = form.sets.iter().map(|set| set.kept.len()).collect();
    assert_eq!(kept, [2, 1, 1, 1]);
}

/// Every table comes back, and the form is never larger.
#[test]
fn there_and_back() {
    let mut tried = 0;
    for i in 0..300 {
        let Ok(rule) = Rule::load(&file(&automaton(&mut Random::new(14, i)))) else { continue };
        let cells = table(&rule);
        let form = numbers(&form(&cells));
        assert!(form.cells.len() <= cells.len() * rule.automaton.k);
        assert_eq!(back(&form), Ok(cells));
        tried += 1;
    }
    assert!(tried > 100);
}

/// Each of the five reasons, and the bounds beside them.
#[test]
fn refusals() {
    let with = |change: fn(&mut Numbers)| {
        let mut form = good();
        change(&mut form);
        back(&form)
    };
    assert_eq!(with(|_| ()), Ok(vec![vec![Some(1), None], vec![Some(0), None]]));
    let wrong: [fn(&mut Numbers); 11] = [
        |form| form.sets = 0,
        |form| form.sets = 513,
        |form| form.symbols = 0,
        |form| form.symbols = 17,
        |form| form.failure[1] = 1,
        |form| form.failure[1] = 2,
        |form| form.masks[0] = 1,
        |form| form.masks[1] = 5,
        |form| form.cells[2] = 2,
        |form| form.cells[0] = 513,
        |form| form.masks[0] = 7,
    ];
    for change in wrong {
        assert_eq!(with(change), Err(40));
    }
    let unread: [fn(&mut Numbers); 4] = [
        |form| form.failure[0] = 9,
        |form| form.failure.push(9),
        |form| form.masks.push(9),
        |form| form.cells.push(900),
    ];
    for change in unread {
        assert_eq!(with(change), back(&good()));
    }
}

/// Numbers that a line leaves out are zeros.
#[test]
fn lines() {
    let due = [
        ("2 2 00000000 03000100 010000020000", "1 - 0 -"),
        ("2 2 - 03000100 010000020000", "1 - 0 -"),
        ("0002 02 - 03 01", "malformed"),
        ("2 2 - 0300 01000002", "1 - 1 -"),
        ("1 1 - 0100 -", "0"),
        ("1 1 - - -", "refused 40"),
        ("65535 255 - - -", "refused 40"),
        ("65537 1 - 0100 -", "refused 40"),
        ("1 257 - 0100 -", "refused 40"),
        ("18446744073709551615 18446744073709551615 - - -", "refused 40"),
        ("18446744073709551616 1 - 0100 -", "malformed"),
        ("65537 1 - 0100 - ", "malformed"),
        ("1 1 - 0100 - ", "malformed"),
        ("", "malformed"),
    ];
    for (line, answered) in due {
        assert_eq!(answer(line.as_bytes()), answered, "{line}");
    }
    let long = "00".repeat(2 * 513);
    assert_eq!(answer(format!("1 1 {long} 0100 -").as_bytes()), "malformed");
    assert_eq!(answer(format!("1 1 {} 0100 -", &long[4..]).as_bytes()), "0");
}
