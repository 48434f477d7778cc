//! The failure form, through the wrapper: rule A's worked by hand, the way back of it and of other rules,
//! the reasons for 40, and what is not read.
use bellbadger::form::{form, table, Form, EMPTY_SET};
use bellbadger::{CheckedRule, Judge};

/// A judge with a rule over so many symbols, with the targets of each state.
fn judge(symbols: u8, rows: &[&[u32]]) -> Judge {
    let mut targets = [0; 512];
    for (state, row) in rows.iter().enumerate() {
        targets[16 * state..16 * state + row.len()].copy_from_slice(row);
    }
    let rule = CheckedRule {
        n: rows.len() as u8,
        k: symbols,
        initials: 1,
        finals: 1,
        targets,
    };
    let mut judge = Judge::new();
    let _loaded = judge.install(&rule).expect("the rule is installed");
    judge
}

/// Rule A of the paper.
fn a() -> Judge {
    judge(2, &[&[3, 1], &[0, 4], &[0, 0]])
}

fn refused(change: impl Fn(&mut Form)) {
    let mut changed = form(&a()).expect("rule A has a form");
    change(&mut changed);
    assert_eq!(table(&changed).unwrap_err().number(), 40);
}

#[test]
fn worked_by_hand() {
    let made = form(&a()).expect("rule A has a form");
    assert_eq!((made.sets, made.symbols, made.kept_cells()), (5, 2, 6));
    assert_eq!(made.failure[..6], [0, 0, 0, 0, 3, 0]);
    assert_eq!(made.kept[..6], [3, 2, 0, 3, 2, 0]);
    assert_eq!(made.cells[..7], [1, 0, 2, EMPTY_SET, 4, EMPTY_SET, 0]);
    assert!(made.cells[6..].iter().all(|&cell| cell == 0));
    let back = table(&made).expect("the form is of a table");
    assert_eq!((back.sets, back.symbols), (5, 2));
    let rows = [[1, 0], [1, 2], [1, 0], [512, 4], [512, 512]];
    for (cell, &next) in back.next.iter().enumerate() {
        let row = rows.get(cell / 16).and_then(|row| row.get(cell % 16));
        assert_eq!(next, *row.unwrap_or(&EMPTY_SET));
    }
}

/// A set's cells that are those of its failure set are looked up there.
#[test]
fn looked_up() {
    for judge in [
        judge(1, &[&[2], &[4], &[3]]),
        judge(3, &[&[3, 2, 1], &[4, 4, 0], &[1, 8, 9], &[0, 2, 5]]),
        judge(16, &[&[1; 16], &[2; 16]]),
    ] {
        let made = form(&judge).expect("the rule has a form");
        let back = table(&made).expect("the form is of a table");
        let mut cells = made.cells.iter();
        for set in 0..usize::from(made.sets) {
            for symbol in 0..usize::from(made.symbols) {
                let due = match made.kept[set] >> symbol & 1 {
                    1 => cells.next().expect("a kept cell"),
                    _ => &back.next[16 * usize::from(made.failure[set]) + symbol],
                };
                assert_eq!(back.next[16 * set + symbol], *due);
            }
        }
    }
}

#[test]
fn reasons_for_40() {
    refused(|form| form.sets = 0);
    refused(|form| form.sets = 513);
    refused(|form| form.symbols = 0);
    refused(|form| form.symbols = 17);
    refused(|form| form.failure[1] = 1);
    refused(|form| form.failure[3] = 4);
    refused(|form| form.kept[0] = 1);
    refused(|form| form.kept[2] = 4);
    refused(|form| form.cells[5] = 5);
    refused(|form| form.cells[0] = 513);
}

#[test]
fn not_read() {
    let mut made = form(&a()).expect("rule A has a form");
    let due = table(&made);
    made.failure[0] = 9;
    made.failure[5] = 5;
    made.kept[5] = 0xFFFF;
    made.cells[6] = 600;
    assert!(table(&made) == due && due.is_ok());
}
