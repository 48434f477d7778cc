//! Where a tray goes wrong.

use reference::automata::{blank, file};
use reference::rule::Automaton;
use reference::trayfaults::Fault::{self, Column, Open, Row, Short};
use reference::trayfaults::lists;
use reference::trays::Tray;

/// Over 0 and 1.
fn rule(initial: u32, finals: u32, targets: &[[u32; 2]]) -> Automaton {
    let mut a = blank(targets.len(), 2);
    (a.initial, a.finals) = (initial, finals);
    a.targets = targets.iter().map(|row| row.to_vec()).collect();
    a
}

/// What ends in 0 1.
fn ends() -> Automaton {
    rule(1, 4, &[[3, 1], [0, 4], [0, 0]])
}

/// 0, 0 1 0, 0 1 0 1 0 and so on; what comes out of turn leads to state 2 and stays there.
fn in_turn() -> Automaton {
    rule(1, 2, &[[2, 4], [4, 1], [4, 4]])
}

fn all() -> Automaton {
    rule(1, 1, &[[1, 1]])
}

fn nothing() -> Automaton {
    rule(1, 0, &[[1, 1]])
}

fn said(tray: &mut Tray, line: &str) -> String {
    tray.said(line.as_bytes()).expect("a call")
}

fn hex(bytes: &[u8]) -> String {
    bytes.iter().map(|byte| format!("{byte:02X}")).collect()
}

/// The fault of a tray of two columns with these bands, none for an empty one.
fn fault(row: &Automaton, column: &Automaton, bands: &[Option<&[u8]>]) -> Result<Fault, u32> {
    let mut tray = Tray::default();
    assert_eq!(tray.fault(), Err(21));
    for (word, a) in [("row", row), ("column", column)] {
        assert!(said(&mut tray, &format!("{word} {}", hex(&file(a)))).starts_with("accepted"));
        assert_eq!(tray.fault(), Err(21));
    }
    assert_eq!(said(&mut tray, &format!("open 2 {}", bands.len())), "accepted");
    for (band, events) in bands.iter().enumerate().rev() {
        let Some(events) = events else { continue };
        let events = if events.is_empty() { "-".to_string() } else { hex(events) };
        assert_eq!(said(&mut tray, &format!("deliver {band} {events}")), "accepted");
    }
    tray.fault()
}

#[test]
fn worked_by_hand() {
    let e: Option<&[u8]> = None;
    let s = Some;
    for (row, column, bands, due) in [
        (ends(), all(), vec![e, e], Open(0)),
        (ends(), all(), vec![s(&[0, 1][..]), e, s(&[0, 1, 1, 1])], Row(2, 1)),
        (ends(), all(), vec![s(&[0, 1, 0, 0]), e, s(&[1, 1])], Row(0, 1)),
        (ends(), all(), vec![s(&[0, 1]), s(&[]), e], Open(2)),
        (ends(), in_turn(), vec![s(&[0, 1]), s(&[0, 0])], Row(1, 0)),
        (ends(), in_turn(), vec![s(&[0, 1]), s(&[0, 1])], Column(0, 1, 0)),
        (all(), in_turn(), vec![e, s(&[1, 1])], Open(0)),
        (all(), in_turn(), vec![s(&[0, 0]), s(&[]), s(&[1, 0]), e], Column(1, 2, 0)),
        (all(), in_turn(), vec![s(&[0, 0, 1, 1]), s(&[])], Short(0)),
        (all(), in_turn(), vec![s(&[0, 0, 1, 1]), s(&[]), e], Open(2)),
        (all(), in_turn(), vec![s(&[0, 0]), s(&[1, 1, 0, 0])], Open(2)),
        (all(), ends(), vec![s(&[0, 0, 1, 0])], Short(1)),
        (all(), ends(), vec![s(&[]), s(&[])], Short(0)),
        (ends(), nothing(), vec![e, e], Column(0, 0, 0)),
        (ends(), nothing(), vec![e, s(&[0, 1])], Column(0, 0, 0)),
        (ends(), nothing(), vec![s(&[]), e], Column(0, 0, 0)),
        (ends(), nothing(), vec![s(&[0, 1]), s(&[1, 1])], Row(1, 0)),
    ] {
        assert_eq!(fault(&row, &column, &bands), Ok(due), "{bands:?}");
    }
}

/// Over lists by chance: a row or a lost column is mended by no delivery, and over a full board the verdict is
/// yes exactly where nothing is wrong.
#[test]
fn beside_the_verdict() {
    let (mut tray, mut before) = (Tray::default(), Err(21));
    let mut seen = [0; 6];
    for line in lists(17, 400).lines() {
        let (call, _) = line.split_once('\t').unwrap_or_default();
        if call.is_empty() {
            (tray, before) = (Tray::default(), Err(21));
            continue;
        }
        said(&mut tray, call);
        let fault = tray.fault();
        let wrong = |fault: &Result<Fault, u32>| matches!(fault, Ok(Row(..) | Column(..)));
        assert!(!call.starts_with("deliver") || !wrong(&before) || wrong(&fault), "{line} after {before:?}");
        let kind = match (said(&mut tray, "verdict").as_str(), fault) {
            ("refused 21", Err(21)) => 0,
            ("yes", Ok(Open(_))) => 1,
            ("no", Ok(Row(..))) => 2,
            ("no", Ok(Column(..))) => 3,
            ("no", Ok(Short(_))) => 4,
            (verdict, Ok(Open(_) | Row(..) | Column(..))) if verdict.starts_with("waiting") => 5,
            (verdict, _) => panic!("{verdict} where there is {fault:?}"),
        };
        seen[kind] += 1;
        before = fault;
    }
    assert!(seen.iter().all(|&times| times > 50), "{seen:?}");
}
