//! rows by one rule, columns by another.

use reference::automata::{blank, file};
use reference::rule::Automaton;
use reference::trays::answers;

/// 0 and 1 in turn, 0 first; and any text.
fn in_turn() -> Automaton {
    let mut a = blank(2, 2);
    (a.initial, a.finals) = (1, 3);
    a.targets = vec![vec![2, 0], vec![0, 1]];
    a
}

fn any() -> Automaton {
    let mut a = blank(1, 2);
    (a.initial, a.finals) = (1, 1);
    a.targets = vec![vec![1, 1]];
    a
}

fn hex(a: &Automaton) -> String {
    file(a).iter().map(|byte| format!("{byte:02X}")).collect()
}

/// The answers to the calls after both rules were installed.
fn after(row: &Automaton, column: &Automaton, calls: &str) -> Vec<String> {
    let text = format!("row {}\ncolumn {}\n{calls}", hex(row), hex(column));
    answers(text.as_bytes()).lines().skip(2).map(str::to_string).collect()
}

#[test]
fn rows_and_columns() {
    // the bytes 0 1 1 0 as two rows: columns in turn, and the second row not
    let calls = "open 2 2\ndeliver 1 0100\nverdict\ndeliver 0 0001\nverdict\n";
    assert_eq!(after(&any(), &in_turn(), calls), ["accepted", "accepted", "waiting 1", "accepted", "no"]);
    let calls = "open 2 1\ndeliver 0 00010001\nverdict\nopen 2 1\ndeliver 0 00000101\nverdict\n";
    assert_eq!(after(&in_turn(), &any(), calls), ["accepted", "accepted", "yes", "accepted", "accepted", "no"]);
    assert_eq!(after(&any(), &in_turn(), calls), ["accepted", "accepted", "no", "accepted", "accepted", "yes"]);
}

#[test]
fn no_rows() {
    let mut some = any();
    some.finals = 0;
    assert_eq!(after(&some, &any(), "open 3 1\ndeliver 0 -\nverdict\n")[2], "yes");
    assert_eq!(after(&any(), &some, "open 3 1\ndeliver 0 -\nverdict\n")[2], "no");
}

#[test]
fn numbers() {
    let calls = format!(
        "open 0 0\nopen 17 1\nopen 1 9\nverdict\nopen 16 8\ndeliver 8 00\ndeliver 0 00\ndeliver 0 {}\ndeliver 0 {}\nwithdraw 0\nverdict\n",
        "02".repeat(1040),
        "02".repeat(16)
    );
    let due = ["refused 38", "refused 38", "refused 10", "refused 21", "accepted", "refused 11", "refused 39", "refused 39", "refused 13", "refused 23", "waiting 8"];
    assert_eq!(after(&any(), &any(), &calls), due);
}

#[test]
fn a_malformed_line_ends_its_list() {
    for line in ["open 1", "verdict ", "deliver 0 0", "row", "0001", " "] {
        let calls = format!("open 1 1\ndeliver 0 -\n{line}\nverdict\n{line}\nrow {}\nverdict\n\nverdict\n\n\nopen 1 1\n", hex(&any()));
        let due = ["accepted", "accepted", "malformed", "skipped", "skipped", "skipped", "skipped", "", "refused 21", "", "", "refused 20"];
        assert_eq!(after(&any(), &any(), &calls), due, "{line}");
    }
}
